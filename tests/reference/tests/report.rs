//! Lines of the report that are easy to get wrong, with whole outputs.
//! Follows document 01, section "The printed report", and document 02, No. 3 and
//! No. 4.

use reference::report::report as text_of;
use reference::table;

/// The report of a table given as two lists.
fn report(n: usize, on: &[u16], free: &[u16]) -> String {
    text_of(&table::write_stored(n, on, free))
}

#[test]
fn empty_lists_and_products_without_factors() {
    let nowhere = "variables 1\non 0 free 0\ndegree 1\ncanonical 1\nrestriction -\n";
    assert_eq!(report(1, &[], &[]), nowhere);
    let everywhere = "variables 1\non 2 free 0\ndegree 1\ncanonical 1\nrestriction 0\nproduct 1\n";
    assert_eq!(report(1, &[0, 1], &[]), everywhere);
    let one_point = "variables 1\non 1 free 0\ndegree 0\ncanonical -\ny1 = x1\n\
                     restriction 0\nproduct x1=0\n";
    assert_eq!(report(1, &[0], &[]), one_point);
}

#[test]
fn counts_are_those_of_the_input() {
    let text = report(2, &[0], &[1, 2, 3]);
    let expected = "variables 2\non 1 free 3\ndegree 2\ncanonical 1 2\nrestriction 0\nproduct 1\n";
    assert_eq!(text, expected);
    let text = report(2, &[], &[0, 1, 2, 3]);
    let expected = "variables 2\non 0 free 4\ndegree 2\ncanonical 1 2\nrestriction -\n";
    assert_eq!(text, expected);
}

/// Only from nine variables, and only with free points, whether they are used or
/// not.
#[test]
fn the_degree_is_simple_from_nine_variables_with_free_points() {
    let line = |n: usize, on: &[u16], free: &[u16]| {
        let text = report(n, on, free);
        text.lines()
            .nth(2)
            .expect("the line of the degree")
            .to_string()
    };
    let last = |n: usize| (1 << n) - 1;
    for n in 1..=table::MOST_VARIABLES {
        let simple = if n >= 9 { " simple" } else { "" };
        assert_eq!(line(n, &[], &[]), format!("degree {n}"));
        assert_eq!(line(n, &[0], &[]), "degree 0");
        assert_eq!(line(n, &[], &[last(n)]), format!("degree {n}{simple}"));
        let all: Vec<u16> = (0..=last(n)).collect();
        assert_eq!(line(n, &all[1..], &[0]), format!("degree {n}{simple}"));
        assert_eq!(line(n, &[], &all), format!("degree {n}{simple}"));
    }
    assert_eq!(line(8, &[0], &[1, 2]), "degree 1");
    assert_eq!(line(9, &[0], &[1, 2]), "degree 0 simple");
    assert_eq!(line(9, &[0], &[1]), "degree 1 simple");
}

#[test]
fn variables_stand_in_index_order() {
    let expected = "variables 3\non 4 free 0\ndegree 2\ncanonical 1 2\ny1 = x1 + x2 + x3\n\
                    restriction 1\nproduct x1+x2+x3=1\n";
    assert_eq!(report(3, &[1, 2, 4, 7], &[]), expected);
}

#[test]
fn a_refused_table_prints_its_number_and_a_place_if_it_has_one() {
    let on = |point| (0x4F, point);
    assert_eq!(text_of(&[]), "refused 21 at 0\n");
    assert_eq!(text_of(&[0x50]), "refused 20 at 0\n");
    assert_eq!(text_of(&[0x4E, 2, 0x45, 1, 0]), "refused 25 at 3\n");
    assert_eq!(text_of(&[0x4E, 2, 0x45, 0, 0, 0]), "refused 26 at 5\n");
    let wide = table::write_records(table::MOST_VARIABLES as u8 + 1, &[]);
    assert_eq!(text_of(&wide), "refused 1\n");
    let large = table::write_records(2, &[on(1), on(1), on(4)]);
    assert_eq!(text_of(&large), "refused 2\n");
    let both = table::write_records(2, &[on(1), (0x44, 1)]);
    assert_eq!(text_of(&both), "refused 3\n");
}

#[test]
fn a_refused_form_stands_after_the_restriction() {
    let text = report(7, &[0], &[]);
    let expected = "variables 7\non 1 free 0\ndegree 0\ncanonical -\ny1 = x1\ny2 = x2\n\
                    y3 = x3\ny4 = x4\ny5 = x5\ny6 = x6\ny7 = x7\nrestriction 0\nrefused 5\n";
    assert_eq!(text, expected);
}
