//! The program that prints the report of a stored table compared with the
//! reference: texts longer than its room for the input, up to the longest that is
//! known, tables of all sizes, and inputs longer than any table. Follows document
//! 01, section "The printed report", and document 02, No. 3 and No. 4.

use glospruma::{MAX_POINTS, MAX_VARIABLES, TABLE_LENGTH};
use library::programs::run;
use library::settings::taken;
use reference::generate::{self, Generator};
use reference::report;
use reference::table::{self, Table};

/// How much of an input the program reads: a byte more than the longest table.
const INPUT_ROOM: usize = TABLE_LENGTH + 1;

/// The longest text that is known: the most variables, and all points on but three
/// of one digit, two of which are free, so that the degree is 0 and `simple`.
const LONGEST_TEXT: usize = 19_544;

/// The longest one without free points: all points on but one of one digit.
const LONGEST_COMPLETE: usize = 19_541;

/// Compares the program with the reference; how long the report is.
fn compare(bytes: &[u8]) -> usize {
    let text = report::report(bytes);
    let found = run("glospruma_report", &[], bytes);
    assert!(
        found == (text.as_bytes().to_vec(), String::new()),
        "{bytes:X?}"
    );
    text.len()
}

fn stored((n, on, free): &Table) -> Vec<u8> {
    table::write_stored(*n, on, free)
}

#[test]
fn longest_texts() {
    let all_but = |off| generate::table_of(MAX_VARIABLES, |point| point != off);
    for off in 0..10 {
        let (n, on, _) = all_but(off);
        let (free, fewer) = on.split_at(2);
        let with_free = (n, fewer.to_vec(), free.to_vec());
        assert_eq!(compare(&stored(&with_free)), LONGEST_TEXT);
        assert_eq!(compare(&stored(&all_but(off))), LONGEST_COMPLETE);
    }
    for off in [10, MAX_POINTS / 2, MAX_POINTS - 1] {
        assert!(compare(&stored(&all_but(off as u16))) < LONGEST_COMPLETE);
    }
}

#[test]
fn texts_longer_than_the_input() {
    let mut generator = Generator::new(190);
    for _ in 0..taken(200) {
        let on = 65 + generator.below(35);
        let free = generator.below(100 - on);
        let table = generate::random_table(&mut generator, MAX_VARIABLES, on, free);
        let length = compare(&stored(&table));
        assert!(length > INPUT_ROOM, "{length} bytes");
    }
}

#[test]
fn tables_of_all_sizes() {
    let mut generator = Generator::new(191);
    for case in 0..taken(600) {
        let n = case % MAX_VARIABLES + 1;
        let dimension = generator.below(n + 1);
        let table = generate::closed_table(&mut generator, n, dimension, 50);
        let percent = [0, generator.below(60)][generator.below(2)];
        let with_free = generate::with_free_points(&mut generator, &table, percent);
        compare(&stored(&with_free));
    }
}

/// The longest table is read whole; with a byte after it, or many, it is refused at
/// the first of them (document 02, No. 3).
#[test]
fn longer_inputs() {
    let longest = stored(&generate::table_of(MAX_VARIABLES, |_| true));
    assert_eq!(longest.len(), INPUT_ROOM - 1);
    compare(&longest);
    for more in [1, 2, 3, 1000, 1 << 20] {
        let bytes = [&longest[..], &vec![0x45; more]].concat();
        assert_eq!(compare(&bytes), "refused 26 at 12293\n".len());
    }
}
