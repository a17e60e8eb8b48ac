//! Lent rooms of the public calls: exact, longer and one short; refused calls
//! return 0 beside their number, or its place, and change nothing. Follows document
//! 01, section "Refusal numbers", and document 02, No. 3.

use reference::calls;
use reference::completion;
use reference::form;
use reference::generate::{self, Generator};
use reference::numbers::*;
use reference::report;
use reference::space;
use reference::table::{self, MOST_POINTS, MOST_VARIABLES};

const FILL: u16 = 0xA5A5;

/// Runs a call that answers with points: one point short is refused with 7, and
/// exact and longer room hold the answer in front and are as lent behind it.
fn check_point_room(answer: &[u16], call: impl Fn(&mut [u16]) -> u8) {
    for extra in [0, 3] {
        let mut room = vec![FILL; answer.len() + extra];
        assert_eq!(call(&mut room), 0);
        assert_eq!(room[..answer.len()], *answer);
        assert_eq!(room[answer.len()..], vec![FILL; extra]);
    }
    if !answer.is_empty() {
        let mut room = vec![FILL; answer.len() - 1];
        assert_eq!(call(&mut room), 7);
        assert_eq!(room, vec![FILL; answer.len() - 1]);
    }
}

/// The same for a call that answers with bytes.
fn check_byte_room(answer: &[u8], call: impl Fn(&mut [u8]) -> u8) {
    for extra in [0, 3] {
        let mut room = vec![0xA5; answer.len() + extra];
        assert_eq!(call(&mut room), 0);
        assert_eq!(room[..answer.len()], *answer);
        assert_eq!(room[answer.len()..], vec![0xA5; extra]);
    }
    for length in [0, answer.len() - 1] {
        let mut room = vec![0xA5; length];
        assert_eq!(call(&mut room), 7);
        assert_eq!(room, vec![0xA5; length]);
    }
}

#[test]
fn rooms_of_tables_and_spaces() {
    let mut generator = Generator::new(10);
    for n in 1..=9 {
        let (_, on, free) = generate::random_table(&mut generator, n, 50, 20);
        let (points, ..) = completion::complete(n, &on, &free);
        check_point_room(&points, |room| calls::complete(n, &on, &free, room).refusal);
        let basis = space::linear_space(n, &points);
        let restriction = space::restriction(n, &points, &basis);
        check_point_room(&restriction, |room| {
            calls::analyse(n, &on, &free, room).refusal
        });
        if let Ok((_, _, projection)) = space::affine(n, &on) {
            check_point_room(&projection, |room| calls::affine(n, &on, room).refusal);
        }
        let bytes = table::write_stored(n, &on, &free);
        check_point_room(&on, |room| {
            calls::read_table(&bytes, room, &mut vec![0; free.len()]).refusal
        });
        check_point_room(&free, |room| {
            calls::read_table(&bytes, &mut vec![0; on.len()], room).refusal
        });
    }
}

#[test]
fn rooms_of_forms() {
    let mut generator = Generator::new(11);
    for n in 1..=MOST_VARIABLES {
        let kept = n.min(6);
        let (_, on, _) = generate::closed_table(&mut generator, n, n - kept, 50);
        let form = form::write_form(n, &on, &[]).expect("a form");
        let bytes = form::encode(&form);
        check_byte_room(&bytes, |room| calls::write_form(n, &on, &[], room).refusal);
        check_byte_room(&bytes, |room| calls::form_rewrite(&bytes, room).refusal);
        check_point_room(&on, |room| calls::form_points(&bytes, room).refusal);
        let stored = table::write_stored(n, &on, &[]);
        let text = report::report(&stored);
        check_byte_room(text.as_bytes(), |room| calls::report(&stored, room).refusal);
        let numbers = calls::form_points(&bytes, &mut vec![0; on.len()]);
        assert_eq!(numbers.variables, n);
        assert_eq!(numbers.point_count, on.len());
    }
}

#[test]
fn either_short_room_refuses_a_table_whole() {
    let bytes = table::write_stored(3, &[1, 2], &[4, 5]);
    for (on_length, free_length) in [(1, 2), (2, 1), (0, 9), (9, 0)] {
        let (mut on, mut free) = (vec![FILL; on_length], vec![FILL; free_length]);
        let numbers = calls::read_table(&bytes, &mut on, &mut free);
        let expected = TableNumbers {
            refusal: 7,
            ..TableNumbers::default()
        };
        assert_eq!(numbers, expected);
        assert!(on.iter().chain(&free).all(|&entry| entry == FILL));
    }
}

/// Refusals of the calls that take lists, in the order complete, analyse,
/// write_form, with no room lent; all other numbers must be 0.
fn list_refusals(n: usize, on: &[u16], free: &[u16]) -> [u8; 3] {
    let complete = calls::complete(n, on, free, &mut []);
    let analyse = calls::analyse(n, on, free, &mut []);
    let form = calls::write_form(n, on, free, &mut []);
    let refusals = [complete.refusal, analyse.refusal, form.refusal];
    let [first, second, third] = refusals;
    let expected_complete = CompletionNumbers {
        refusal: first,
        ..Default::default()
    };
    let expected_analysis = AnalysisNumbers {
        refusal: second,
        ..Default::default()
    };
    let expected_form = FormNumbers {
        refusal: third,
        ..Default::default()
    };
    assert_eq!(complete, expected_complete);
    assert_eq!(analyse, expected_analysis);
    assert_eq!(form, expected_form);
    refusals
}

#[test]
fn refusals_of_calls_on_lists() {
    assert_eq!(list_refusals(0, &[1], &[1]), [1, 1, 1]);
    let (most, end) = (MOST_VARIABLES, MOST_POINTS as u16);
    assert_eq!(list_refusals(most + 1, &[1], &[1]), [1, 1, 1]);
    assert_eq!(list_refusals(most, &[end], &[]), [2, 2, 2]);
    assert_eq!(list_refusals(2, &[1, 1], &[4]), [2, 2, 2]);
    assert_eq!(list_refusals(2, &[1, 1], &[1]), [3, 3, 3]);
    assert_eq!(list_refusals(2, &[1], &[1]), [4, 4, 4]);
    assert_eq!(list_refusals(most, &[0], &[]), [7, 7, 5]);
    let space = calls::linear_space(most, &[end]);
    assert_eq!((space.refusal, space.degree), (2, 0));
    assert_eq!(calls::linear_space(most + 1, &[]).refusal, 1);
    assert_eq!(calls::linear_space(most, &[1, 1]).refusal, 3);
    assert_eq!(calls::linear_space(most, &[end - 1]).refusal, 0);
}

#[test]
fn refusals_of_the_affine_call() {
    let refusal = |n, on: &[u16]| calls::affine(n, on, &mut []).refusal;
    assert_eq!(refusal(0, &[]), 1);
    assert_eq!(refusal(2, &[4, 4]), 2);
    assert_eq!(refusal(2, &[1, 1]), 3);
    assert_eq!(refusal(2, &[]), 6);
    assert_eq!(refusal(2, &[0]), 7);
}

#[test]
fn restriction_of_six_and_of_seven_variables() {
    let mut generator = Generator::new(12);
    for n in 7..=MOST_VARIABLES {
        for kept in [6, 7] {
            let table = loop {
                let table = generate::closed_table(&mut generator, n, n - kept, 40);
                if space::linear_space(n, &table.1).len() == n - kept {
                    break table;
                }
            };
            let refusal = calls::write_form(n, &table.1, &[], &mut []).refusal;
            assert_eq!(refusal, if kept == 6 { 7 } else { 5 });
            let text = report::report(&table::write_stored(n, &table.1, &[]));
            assert_eq!(text.ends_with("\nrefused 5\n"), kept == 7);
            assert_eq!(text.contains("\nproduct "), kept == 6);
        }
    }
}

/// A text is written for a refused table too, if it fits.
#[test]
fn rooms_of_reports_on_refused_tables() {
    for (bytes, text) in [
        (&[][..], "refused 21 at 0\n"),
        (&[0x4E, MOST_VARIABLES as u8 + 1, 0x45, 0, 0], "refused 1\n"),
    ] {
        check_byte_room(text.as_bytes(), |room| calls::report(bytes, room).refusal);
        let short = calls::report(bytes, &mut vec![0; text.len() - 1]);
        let refused = ReportNumbers {
            refusal: 7,
            length: 0,
        };
        assert_eq!(short, refused);
        assert_eq!(calls::report(bytes, &mut [0; 99]).length, text.len());
    }
}

#[test]
fn faults_of_a_form_come_before_its_room() {
    let most = MOST_VARIABLES as u8;
    let read = calls::form_points(&[0x4E, most + 1], &mut []);
    assert_eq!((read.refusal, read.place), (22, 1));
    let rewritten = calls::form_rewrite(&[0x4E], &mut []);
    assert_eq!((rewritten.refusal, rewritten.place), (21, 1));
    let everywhere = [0x4E, most, 0x50, 0x45, 1, 0];
    let refused = |length| {
        let read = calls::form_points(&everywhere, &mut vec![0; length]);
        (read.refusal, read.place)
    };
    assert_eq!(refused(MOST_POINTS - 1), (7, 0));
    assert_eq!(refused(MOST_POINTS), (0, 0));
}
