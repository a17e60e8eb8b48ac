//! The call that writes the report of a stored table compared with the reference.
//! Follows document 01, section "The printed report", and document 02, No. 3 and
//! No. 4.

use crate::judges;
use crate::lent::{with_each_room, Lent};
use crate::stored;
use crate::tables;
use crate::tally::{assert_found, Tally};
use glospruma::{MAX_POINTS, MAX_VARIABLES};
use library::settings::{is_whole, some, taken};
use library::Report;
use reference::generate::{self, Generator};
use reference::numbers::ReportNumbers;
use reference::report;
use reference::table;
use std::collections::BTreeMap;

/// The numbers of the call in the reference's words.
pub fn numbers(found: &Report) -> ReportNumbers {
    ReportNumbers {
        refusal: found.refusal,
        length: found.length,
    }
}

/// Makes the call with room of each length and compares its numbers and the
/// memory: the text, or refusal 7 if it doesn't fit. A refused table has a text.
pub fn compare_text(tally: &mut Tally, bytes: &[u8], text: &[u8]) {
    let lent = Lent::holding(bytes);
    with_each_room(text, |room, fits| {
        let (refusal, length) = if fits { (0, text.len()) } else { (7, 0) };
        let found = library::report(lent.part(), room);
        assert_eq!(
            numbers(&found),
            ReportNumbers { refusal, length },
            "room {}, {bytes:X?}",
            room.len()
        );
        lent.assert_as_lent();
        tally.add(found.refusal);
    });
}

/// As before, with the reference's text, which is handed back.
fn compare(tally: &mut Tally, bytes: &[u8]) -> String {
    let text = report::report(bytes);
    judges::assert_report(bytes, text.as_bytes());
    compare_text(tally, bytes, text.as_bytes());
    text
}

/// Counts of texts by their last line: a refusal by its number, or anything else.
#[derive(Default)]
struct Endings {
    refused: BTreeMap<u8, usize>,
    with_form: usize,
}

impl Endings {
    fn add(&mut self, text: &str) {
        let last = text.lines().last().expect("a text has a line");
        let Some(refused) = last.strip_prefix("refused ") else {
            self.with_form += 1;
            return;
        };
        let number = refused.split(" at ").next().expect("one part at least");
        let number = number.parse().expect("a number");
        *self.refused.entry(number).or_insert(0) += 1;
    }

    /// Prints the counts; some text must have had a form if all inputs are taken,
    /// and these refusals must have come up.
    fn finish(self, expected: &[u8]) {
        println!(
            "texts with a form {}, by refusal {:?}",
            self.with_form, self.refused
        );
        let found: Vec<u8> = self.refused.into_keys().collect();
        assert_found("refusals printed", &found, expected);
        assert!(self.with_form > 0 || !is_whole());
    }
}

/// Compares the bytes; these refusals must be printed.
fn compare_all(
    title: &'static str,
    inputs: impl IntoIterator<Item = Vec<u8>>,
    expected_refusals: &[u8],
) {
    let mut tally = Tally::new(title);
    let mut endings = Endings::default();
    for bytes in inputs {
        let text = compare(&mut tally, &bytes);
        endings.add(&text);
    }
    endings.finish(expected_refusals);
    tally.finish(&[0, 7]);
}

#[test]
fn every_small_table() {
    let inputs = tables::small_tables().map(|table| stored::bytes_of(&table));
    compare_all("report, every small table", inputs, &[]);
}

#[test]
fn random_and_known_tables() {
    let tables = tables::random_tables(180).chain(tables::known_tables());
    let inputs = tables.map(|table| stored::bytes_of(&table));
    compare_all("report, random and known tables", inputs, &[5]);
}

#[test]
fn many_free_points() {
    let tables = tables::closure_tables(186).chain(tables::free_tables(187));
    let inputs = tables.map(|table| stored::bytes_of(&table));
    compare_all("report, many free points", inputs, &[5]);
}

/// The degree's line ends in `simple` from nine variables if there are free points,
/// whether they are used or not; never below, and not without free points. Every
/// share of the inputs has eight and nine variables.
#[test]
fn simple_from_nine_variables_with_free_points() {
    let mut tally = Tally::new("report, simple");
    let mut line = |n: usize, on: &[u16], free: &[u16]| {
        let text = compare(&mut tally, &table::write_stored(n, on, free));
        text.lines().nth(2).expect("the degree's line").to_string()
    };
    for n in some(6..=MAX_VARIABLES).chain(1..6) {
        let all: Vec<u16> = (0..1 << n).collect();
        let simple = if n >= 9 { " simple" } else { "" };
        assert_eq!(line(n, &all, &[]), format!("degree {n}"));
        assert_eq!(line(n, &all[1..], &[]), "degree 0");
        assert_eq!(line(n, &all[1..], &all[..1]), format!("degree {n}{simple}"));
        assert_eq!(line(n, &[], &all), format!("degree {n}{simple}"));
        let few = &[1, 2][..all.len().min(3) - 1];
        let degree = if (2..9).contains(&n) {
            1
        } else {
            usize::from(n == 1)
        };
        assert_eq!(line(n, &[0], few), format!("degree {degree}{simple}"));
    }
    tally.finish(&[0, 7]);
}

#[test]
fn random_and_known_restrictions() {
    let tables = tables::kept_tables(181, 5, 7).chain(tables::lifted_tables(182));
    let inputs = tables.map(|table| stored::bytes_of(&table));
    compare_all("report, random and known restrictions", inputs, &[5]);
}

#[test]
fn damaged_short_tables() {
    let mut generator = Generator::new(183);
    let whole = stored::short_tables(&mut generator).into_iter();
    let inputs = whole.flat_map(|bytes| stored::every_damage(&bytes));
    compare_all(
        "report, damaged short tables",
        inputs,
        &[1, 2, 3, 5, 20, 21, 25, 26],
    );
}

#[test]
fn damaged_long_tables() {
    let mut generator = Generator::new(184);
    let inputs = (7..=MAX_VARIABLES).flat_map(|n| {
        let table = generate::closed_table(&mut generator, n, n - 6, 50);
        let bytes = stored::bytes_of(&table);
        let damaged = stored::some_damages(&mut generator, &bytes);
        [vec![bytes], damaged].concat()
    });
    compare_all(
        "report, damaged long tables",
        inputs,
        &[1, 2, 3, 5, 20, 21, 25, 26],
    );
}

#[test]
fn longest_tables() {
    compare_all(
        "report, longest tables",
        stored::longest(),
        &[1, 2, 5, 20, 21, 25, 26],
    );
}

#[test]
fn faulty_points() {
    let inputs = stored::faulty_points();
    compare_all("report, faulty points", inputs, &[1, 2, 3, 5]);
}

#[test]
fn random_records() {
    let mut generator = Generator::new(185);
    let inputs = (0..taken(20_000)).flat_map(|_| {
        let mostly_right = stored::random_records(&mut generator);
        [mostly_right, generate::random_records(&mut generator, 6)]
    });
    compare_all(
        "report, random records",
        inputs,
        &[1, 2, 3, 5, 20, 21, 25, 26],
    );
}

/// The longest texts are those of the most variables without a form; the line of
/// the restriction then has all points but one, or all but three of which two are
/// free and the degree is `simple`.
#[test]
fn longest_texts() {
    let mut tally = Tally::new("report, longest texts");
    let mut longest = 0;
    let last = (MAX_POINTS - 1) as u16;
    for off in [0, 1, last / 2 + 1, last] {
        let (n, on, _) = generate::table_of(MAX_VARIABLES, |point| point != off);
        let last_on = if off == last { last - 1 } else { last };
        let (free, fewer) = on.split_at(2);
        for table in [(n, on.clone(), vec![]), (n, fewer.to_vec(), free.to_vec())] {
            let text = compare(&mut tally, &stored::bytes_of(&table));
            assert!(text.ends_with(&format!(" {last_on}\nrefused 5\n")));
            longest = longest.max(text.len());
        }
    }
    println!("longest text: {longest} bytes");
    tally.finish(&[0, 7]);
}
