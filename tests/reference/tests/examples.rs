//! The worked examples P1 to P9 through the public calls, and the whole report
//! of P5. Follows document 01, sections "Table of proved examples" and "The
//! printed report", and document 02, No. 4, for P8.

use reference::calls;
use reference::numbers::short_list;
use reference::primes;
use reference::report;
use reference::table;

const P5_ON: [u16; 10] = [4, 5, 6, 7, 9, 10, 12, 13, 14, 15];

/// Degree and form bytes of a table.
fn degree_and_form(n: usize, on: &[u16]) -> (usize, Vec<u8>) {
    let mut room = [0; 1605];
    let numbers = calls::write_form(n, on, &[], &mut room);
    assert_eq!(numbers.refusal, 0);
    let degree = calls::linear_space(n, on).degree;
    (degree, room[..numbers.length].to_vec())
}

/// Restriction of a table.
fn restriction(n: usize, on: &[u16]) -> Vec<u16> {
    let mut room = [0; table::MOST_POINTS];
    let numbers = calls::analyse(n, on, &[], &mut room);
    assert_eq!(numbers.refusal, 0);
    room[..numbers.restriction_count].to_vec()
}

#[test]
fn p1_to_p3_one_variable() {
    assert_eq!(
        degree_and_form(1, &[]),
        (1, vec![0x4E, 0x01, 0x45, 0x00, 0x00])
    );
    assert_eq!(degree_and_form(1, &[0]).0, 0);
    let (degree, form) = degree_and_form(1, &[0, 1]);
    assert_eq!(degree, 1);
    assert_eq!(form, [0x4E, 0x01, 0x50, 0x45, 0x01, 0x00]);
    assert_eq!(restriction(1, &[]), []);
    assert_eq!(restriction(1, &[0, 1]), [0]);
}

#[test]
fn p4_parity_of_three() {
    let on = [1, 2, 4, 7];
    let mut room = [9; 8];
    let numbers = calls::analyse(3, &on, &[], &mut room);
    assert_eq!(numbers.refusal, 0);
    assert_eq!(numbers.degree, 2);
    assert_eq!(numbers.basis, short_list(&[3, 5]));
    assert_eq!(numbers.canonical, short_list(&[1, 2]));
    assert_eq!(numbers.equations, short_list(&[7]));
    assert_eq!(numbers.restriction_count, 1);
    assert_eq!(room, [1, 9, 9, 9, 9, 9, 9, 9]);
    let mut records = [0; 64];
    let listing = calls::list_primes(3, &on, &[], 0, 51, &mut records);
    assert_eq!(listing.records, 1);
    assert_eq!(records[..8], [2, 1, 3, 5, 0, 0, 0, 0]);
}

#[test]
fn p5_form_and_report() {
    let numbers = calls::linear_space(4, &P5_ON);
    assert_eq!(numbers.basis, short_list(&[3]));
    assert_eq!(restriction(4, &P5_ON), [2, 3, 5, 6, 7]);
    let expected = [
        0x4E, 0x04, 0x50, 0x58, 0x01, 0x04, 0x00, 0x50, 0x58, 0x01, 0x0C, 0x00, 0x58, 0x00, 0x0B,
        0x00, 0x45, 0x02, 0x00,
    ];
    assert_eq!(degree_and_form(4, &P5_ON), (1, expected.to_vec()));
    let text = "variables 4\non 10 free 0\ndegree 1\ncanonical 3\ny1 = x1\ny2 = x2\n\
                y3 = x3 + x4\nrestriction 2 3 5 6 7\nproduct x2=1\n\
                product x1+x2=1 x1+x3+x4=0\n";
    assert_eq!(report::report(&table::write_stored(4, &P5_ON, &[])), text);
}

#[test]
fn p6_primes() {
    let primes = primes::primes(3, &[2, 3, 5, 6, 7], &[]);
    let found: Vec<(u16, Vec<u16>)> = primes
        .into_iter()
        .map(|cube| (cube.least, cube.basis))
        .collect();
    let expected = [
        (2, vec![1, 4]),
        (2, vec![7]),
        (3, vec![6]),
        (5, vec![2]),
        (5, vec![3]),
    ];
    assert_eq!(found, expected);
}

#[test]
fn p7_smallest_affine_space() {
    let mut room = [9; 6];
    let numbers = calls::affine(4, &[2, 4, 6, 11, 13], &mut room);
    assert_eq!(
        (numbers.refusal, numbers.least, numbers.dimension),
        (0, 0, 3)
    );
    assert_eq!(numbers.basis, short_list(&[2, 4, 9]));
    assert_eq!(numbers.projection_count, 5);
    assert_eq!(room, [1, 2, 3, 5, 6, 9]);
}

#[test]
fn p8_degrees_of_completion() {
    let mut room = [9; 4];
    let numbers = calls::complete(2, &[0], &[1, 2], &mut room);
    assert_eq!((numbers.refusal, numbers.degree), (0, 1));
    assert_eq!((numbers.k0, numbers.k1, numbers.point_count), (0, 0, 2));
    assert_eq!(room, [0, 1, 9, 9]);
    let numbers = calls::analyse(2, &[0], &[1, 2], &mut room);
    assert_eq!(numbers.basis, short_list(&[1]));
}

#[test]
fn p9_the_end_of_a_listing() {
    let mut room = [9; 16];
    let all = calls::list_primes(2, &[], &[0], 0, 100, &mut room);
    assert_eq!(
        (all.refusal, all.next_place, all.passed, all.records),
        (0, 11, 11, 0)
    );
    let end = calls::list_primes(2, &[], &[0], 11, 100, &mut room);
    assert_eq!(
        (end.refusal, end.next_place, end.passed, end.records),
        (0, 11, 0, 0)
    );
    let beyond = calls::list_primes(2, &[], &[0], 12, 100, &mut room);
    assert_eq!(
        (
            beyond.refusal,
            beyond.next_place,
            beyond.passed,
            beyond.records
        ),
        (9, 0, 0, 0)
    );
    assert_eq!(room, [9; 16]);
}
