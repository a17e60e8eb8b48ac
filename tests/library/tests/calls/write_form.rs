//! The call that writes the form of a table compared with the reference, and the
//! form read back. Follows document 01, sections "The written form" and "Refusal
//! numbers", and document 02, No. 4.

use crate::forms;
use crate::lent::{with_each_room, Lent};
use crate::lent_calls;
use crate::lists;
use crate::tables;
use crate::tally::{assert_counts, Tally};
use glospruma::{MAX_POINTS, MAX_VARIABLES};
use library::FormWritten;
use reference::calls;
use reference::generate;
use reference::numbers::FormNumbers;
use reference::refusal::SHORT_ROOM;
use reference::table::Table;

/// Most bytes of a written form: 62 products of at most five factors.
const LONGEST_WRITTEN: usize = 2 + 62 * (1 + 5 * 4) + 3;

/// The numbers of the call in the reference's words.
pub fn numbers(found: &FormWritten) -> FormNumbers {
    FormNumbers {
        refusal: found.refusal,
        length: found.length,
        products: found.products,
    }
}

/// Numbers of a refused call.
fn refused(refusal: u8) -> FormNumbers {
    FormNumbers {
        refusal,
        ..Default::default()
    }
}

/// Makes the call with room of each length and compares its numbers and the
/// memory; hands back the expected numbers and bytes.
fn compare(tally: &mut Tally, n: usize, on: &[u16], free: &[u16]) -> (FormNumbers, Vec<u8>) {
    let mut answer = vec![0; LONGEST_WRITTEN];
    let accepted = calls::write_form(n, on, free, &mut answer);
    answer.truncate(accepted.length);
    let (lent_on, lent_free) = (Lent::holding(on), Lent::holding(free));
    with_each_room(&answer, |room, fits| {
        let expected = if fits { accepted } else { refused(SHORT_ROOM) };
        let found = library::write_form(n, lent_on.part(), lent_free.part(), room);
        assert_eq!(
            numbers(&found),
            expected,
            "n {n}, on {on:?}, free {free:?}, room {}",
            room.len()
        );
        lent_on.assert_as_lent();
        lent_free.assert_as_lent();
        tally.add(found.refusal);
    });
    (accepted, answer)
}

/// Compares tables, and reads each form back: it is written again as it was read,
/// and its points are those of the completed function. Counts the accepted tables
/// by the variables kept, and the refused ones under the last number.
struct Check {
    tally: Tally,
    kept: [usize; 8],
    most_products: usize,
    room: Vec<u16>,
}

impl Check {
    fn new(title: &'static str) -> Check {
        Check {
            tally: Tally::new(title),
            kept: [0; 8],
            most_products: 0,
            room: vec![0; MAX_POINTS],
        }
    }

    fn table(&mut self, (n, on, free): &Table) {
        let (expected, form) = compare(&mut self.tally, *n, on, free);
        let completion = lent_calls::complete(*n, on, free, &mut self.room);
        let kept = n - completion.degree;
        self.kept[kept.min(7)] += 1;
        if kept > 6 {
            assert_eq!(expected, refused(5));
            return;
        }
        let points = forms::points_read(*n, &form);
        assert_eq!(points, self.room[..completion.count]);
        self.most_products = self.most_products.max(expected.products);
    }

    /// Prints the counts; each number of variables kept up to the given one must
    /// have come up so many times.
    fn finish(self, refusals: &[u8], most_kept: usize, fewest: usize) {
        println!(
            "tables by variables kept, above six as 7: {:?}; at most {} products",
            self.kept, self.most_products
        );
        assert_counts("variables kept", &self.kept[..=most_kept], fewest);
        self.tally.finish(refusals);
    }
}

#[test]
fn every_small_table() {
    let mut check = Check::new("write form, every small table");
    tables::small_tables().for_each(|table| check.table(&table));
    assert_eq!(check.kept.iter().sum::<usize>(), tables::small_count());
    check.finish(&[0, 7], 3, 100);
}

#[test]
fn every_function_of_four_variables() {
    let mut tally = Tally::new("write form, every function of four variables");
    for on in tables::functions_of_four() {
        let mut answer = [0; LONGEST_WRITTEN];
        let expected = calls::write_form(4, &on, &[], &mut answer);
        let mut room = vec![0; expected.length];
        let found = lent_calls::write_form(4, &on, &[], &mut room);
        assert_eq!(numbers(&found), expected, "on {on:?}");
        assert_eq!(room, answer[..expected.length], "on {on:?}");
        tally.add(found.refusal);
    }
    tally.finish(&[0]);
}

#[test]
fn random_and_known_tables() {
    let mut check = Check::new("write form, random and known tables");
    for table in tables::random_tables(170).chain(tables::known_tables()) {
        check.table(&table);
    }
    check.finish(&[0, 5, 7], 7, 50);
}

#[test]
fn many_free_points() {
    let mut check = Check::new("write form, many free points");
    for table in tables::closure_tables(173).chain(tables::free_tables(174)) {
        check.table(&table);
    }
    check.finish(&[0, 5, 7], 7, 10);
}

/// Restrictions of no variable to seven.
#[test]
fn random_restrictions() {
    let mut check = Check::new("write form, random restrictions");
    tables::kept_tables(171, 10, 7).for_each(|table| check.table(&table));
    check.finish(&[0, 5, 7], 7, 100);
}

#[test]
fn known_restrictions() {
    let mut check = Check::new("write form, known restrictions");
    tables::lifted_tables(172).for_each(|table| check.table(&table));
    check.finish(&[0, 5, 7], 7, 30);
}

/// Functions of six variables, as sets, with more products and with longer forms
/// than random ones have, found by a search; and how many of both.
const LONG_FORMS: [(u64, usize, usize); 2] = [
    (0xB88D_9D7F_7F1B_7FEF, 21, 278),
    (0x23B0_2190_AC17_DBE0, 18, 311),
];

#[test]
fn long_forms() {
    let mut check = Check::new("write form, long forms");
    for (set, products, length) in LONG_FORMS {
        let flags: Vec<bool> = (0..64).map(|point| set >> point & 1 == 1).collect();
        for basis in [
            &[][..],
            &[64, 128, 256, 512, 1024, 2048],
            &[1, 2, 4, 8, 16, 32],
        ] {
            let table = generate::lifted(6 + basis.len(), basis, &flags);
            let (expected, _) = compare(&mut check.tally, table.0, &table.1, &[]);
            assert_eq!((expected.products, expected.length), (products, length));
            check.table(&table);
        }
    }
    check.tally.finish(&[0, 7]);
}

#[test]
fn faulty_lists() {
    let mut tally = Tally::new("write form, faulty lists");
    for (n, on, free) in lists::pairs() {
        compare(&mut tally, n, &on, &free);
    }
    for (n, on, free, refusal) in lists::ORDERED {
        let (expected, _) = compare(&mut tally, n, on, free);
        assert_eq!(
            expected,
            refused(refusal),
            "n {n}, on {on:?}, free {free:?}"
        );
    }
    tally.finish(&[0, 1, 2, 3, 4, 5, 7]);
}

/// The refusals of a table come before 5, and 5 before 7; 5 is for the completed
/// function's restriction and not for n. With on point 0 and free points 1 to 8 the
/// closure set has a space of three dimensions, which counts up to eight variables.
#[test]
fn order_of_refusals() {
    let even: Vec<u16> = (0..128).step_by(2).collect();
    let few: Vec<u16> = (1..8).collect();
    let more: Vec<u16> = (1..9).collect();
    let cases: [(usize, &[u16], &[u16], u8); 21] = [
        (0, &[], &[], 1),
        (MAX_VARIABLES + 1, &[1], &[1], 1),
        (7, &[128], &[], 2),
        (7, &[1, 1], &[128], 2),
        (7, &[1, 1], &[1], 3),
        (7, &[1], &[1], 4),
        (7, &[1], &[], 5),
        (7, &[1], &[2], 7),
        (7, &[1], &[2, 4], 7),
        (8, &[0], &[1, 2], 5),
        (8, &[0], &[1, 2, 3], 7),
        (8, &[0], &more, 7),
        (9, &[0], &more, 5),
        (9, &[0], &few, 7),
        (12, &[4095], &[0], 5),
        (12, &[0, 1, 2], &[], 5),
        (6, &[1], &[2], 7),
        (7, &[], &[], 7),
        (12, &[], &[0, 4095], 7),
        (7, &even, &[], 7),
        (7, &even[1..], &[0], 7),
    ];
    for (n, on, free, refusal) in cases {
        for length in 0..5 {
            let mut room = vec![7; length];
            let found = lent_calls::write_form(n, on, free, &mut room);
            assert_eq!(numbers(&found), refused(refusal), "n {n}, on {on:?}");
            assert_eq!(room, vec![7; length]);
        }
    }
}

/// On point 0 alone of n variables keeps all of them; as one of two equal halves
/// it keeps one less.
#[test]
fn six_and_seven_variables_kept() {
    let refusal = |n, on: &[u16], length| {
        let mut room = vec![0; length];
        lent_calls::write_form(n, on, &[], &mut room).refusal
    };
    for length in [0, 30, 2000] {
        let fits = if length < 30 { 7 } else { 0 };
        assert_eq!(refusal(6, &[0], length), fits);
        assert_eq!(refusal(7, &[0], length), 5);
        assert_eq!(refusal(7, &[0, 127], length), fits);
        assert_eq!(refusal(8, &[0, 255], length), 5);
        assert_eq!(refusal(8, &[0, 64, 128, 192], length), fits);
        let pairs: Vec<u16> = (0..64).map(|high| 64 * high).collect();
        assert_eq!(refusal(12, &pairs, length), fits);
        assert_eq!(refusal(12, &pairs[..32], length), 5);
    }
}

/// In the second product the canonical variables of two equations cancel: its
/// masks are 30 and 13.
#[test]
fn canonical_variables_that_cancel() {
    let on = [1, 4, 6, 8, 10, 13, 17, 19, 20, 24, 29, 31];
    let mut room = [9; 24];
    let found = lent_calls::write_form(5, &on, &[], &mut room);
    assert_eq!((found.refusal, found.length, found.products), (0, 23, 2));
    let masks = [6, 10, 15, 19].map(|place| room[place - 1]);
    assert_eq!(masks, [2, 13, 30, 13]);
    assert_eq!(forms::points_read(5, &room[..23]), on);
    assert_eq!(room[23], 9);
}
