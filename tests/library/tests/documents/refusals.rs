//! What is wrong with bytes, by example (document 02, No. 3): README.md and the
//! header have an example of each number that a place goes with, and docs/CALLS.md
//! has ten damaged forms. The bytes of every row are read by the library and by
//! both judges of the reference, which print what the row says. And a refusal has
//! one name in the header, in the Rust package and in the code.

use crate::names::read;
use crate::tables::{quoted, rows_under, Row};
use glospruma::{form_points, form_rewrite, index_build, read_table, report, Refusal};
use glospruma::{PointRecord, FORM_ROOM, MAX_POINTS, REPORT_ROOM};
use reference::faults::{self, Fault};
use std::collections::{BTreeMap, BTreeSet};
use std::fmt::Display;

const HEADER: &str = "include/glospruma.h";

/// A row of a table: bytes, what they are read as, and what is printed.
#[derive(Clone)]
struct Example {
    line: usize,
    bytes: Vec<u8>,
    read_as: Vec<String>,
    printed: String,
}

/// Bytes in hexadecimal, two digits each, with a space between them.
fn hexadecimal(text: &str) -> Option<Vec<u8>> {
    let is_pair =
        |word: &&str| word.len() == 2 && word.chars().all(|digit| digit.is_ascii_hexdigit());
    let byte = |word: &str| u8::from_str_radix(Some(word).filter(is_pair)?, 16).ok();
    text.split(' ').map(byte).collect()
}

/// The bytes of a cell: `none`, or parts with `, then ` between them, each of which
/// has bytes, or bytes so many times.
fn bytes_of(cell: &str) -> Option<Vec<u8>> {
    let mut bytes = Vec::new();
    for part in cell.split(", then ").filter(|&part| part != "none") {
        let (count, listed) = match part.split_once(" times ") {
            Some((count, listed)) => (count.parse().ok()?, listed),
            None => (1, part),
        };
        bytes.extend(hexadecimal(listed)?.repeat(count));
    }
    Some(bytes)
}

/// The example of a row, by its cells.
fn example(row: &Row, bytes: &str, read_as: &str, printed: String) -> Example {
    Example {
        line: row.line,
        bytes: bytes_of(bytes).unwrap_or_else(|| panic!("line {}: {bytes}", row.line)),
        read_as: read_as.split(", ").map(str::to_string).collect(),
        printed,
    }
}

fn of_readme() -> Vec<Example> {
    let rows = rows_under(&read("README.md"), &["printed", "bytes", "read as"]);
    let of_row = |row: &Row| {
        let [printed, bytes, read_as, ..] = &row.cells[..] else {
            panic!("line {}", row.line);
        };
        example(row, bytes, read_as, quoted(printed).concat())
    };
    rows.iter().map(of_row).collect()
}

/// Those of the header stand in a comment.
fn of_header() -> Vec<Example> {
    let text = read(HEADER).replace("\n * |", "\n|");
    let rows = rows_under(&text, &["bytes", "read as", "refusal", "place"]);
    let of_row = |row: &Row| {
        let [bytes, read_as, refusal, place, ..] = &row.cells[..] else {
            panic!("line {}", row.line);
        };
        example(row, bytes, read_as, format!("refused {refusal} at {place}"))
    };
    rows.iter().map(of_row).collect()
}

fn of_calls() -> Vec<Example> {
    let text = read("docs/CALLS.md");
    let rows = rows_under(&text, &["what was damaged", "bytes", "printed"]);
    let of_row = |row: &Row| example(row, &row.cells[1], "form", quoted(&row.cells[2]).concat());
    rows.iter().map(of_row).collect()
}

/// What is printed of an answer, without the words.
fn line<A>(answer: Result<A, impl Display>) -> String {
    let printed = answer.map_or_else(|refused| refused.to_string(), |_| "accepted".to_string());
    let number_and_place = printed.split(':').next();
    number_and_place.expect("one part at least").to_string()
}

/// What is printed of the first fault of a list.
fn first(faults: &[Fault]) -> String {
    line(faults.first().map_or(Ok(()), |fault| Err(fault.refused)))
}

/// What the library and the reference print of bytes that are read as a table.
fn as_table(bytes: &[u8]) -> Vec<String> {
    let (mut on, mut free) = ([0; MAX_POINTS], [0; MAX_POINTS]);
    let mut room = [0; REPORT_ROOM];
    let reported = report(bytes, &mut room).expect("a room that suffices");
    vec![
        line(read_table(bytes, &mut on, &mut free)),
        reported.text.trim_end().to_string(),
        line(reference::table::read_stored(bytes)),
        first(&faults::of_table(bytes)),
    ]
}

/// What they print of bytes that are read as a form.
fn as_form(bytes: &[u8]) -> Vec<String> {
    let (mut points, mut again) = ([0; MAX_POINTS], [0; FORM_ROOM]);
    let mut list = [PointRecord::default(); MAX_POINTS];
    vec![
        line(form_points(bytes, &mut points)),
        line(form_rewrite(bytes, &mut again)),
        line(index_build(bytes, &mut list)),
        line(reference::form::read_form(bytes)),
        first(&faults::of_form(bytes)),
    ]
}

/// Whether all readers print what an example says.
fn holds(example: &Example) -> bool {
    let is_so = |lines: Vec<String>| lines.iter().all(|line| *line == example.printed);
    example
        .read_as
        .iter()
        .all(|reading| match reading.as_str() {
            "table" => is_so(as_table(&example.bytes)),
            "form" => is_so(as_form(&example.bytes)),
            _ => false,
        })
}

/// The lines of examples of which something else is printed.
fn wrong(examples: &[Example]) -> Vec<usize> {
    let wrong = examples.iter().filter(|example| !holds(example));
    wrong.map(|example| example.line).collect()
}

/// The refusals that a place goes with and that no example has.
fn without_example(examples: &[Example]) -> Vec<Refusal> {
    let mut found = Refusal::ALL.to_vec();
    found.retain(|&refusal| {
        let start = format!("refused {} at ", u8::from(refusal));
        let mut printed = examples.iter().map(|example| &example.printed);
        refusal.has_place() && !printed.any(|printed| printed.starts_with(&start))
    });
    found
}

#[test]
fn examples_are_refused_as_printed() {
    for examples in [of_readme(), of_header(), of_calls()] {
        assert_eq!(wrong(&examples), Vec::<usize>::new());
        assert_eq!(without_example(&examples), []);
    }
}

#[test]
fn ten_forms_are_damaged() {
    let examples = of_calls();
    let different: BTreeSet<&Vec<u8>> = examples.iter().map(|example| &example.bytes).collect();
    assert!(different.len() >= 10, "{} damaged forms", different.len());
}

/// Another number, another place, no place, another reader or other bytes: each is
/// found in every row.
#[test]
fn wrong_examples_are_found() {
    for example in [of_readme(), of_header(), of_calls()].concat() {
        let (number, place) = example.printed.split_once(" at ").expect("a place");
        let mut changed = [(); 5].map(|()| example.clone());
        changed[0].printed = format!("{number}0 at {place}");
        changed[1].printed = format!("{number} at {place}0");
        changed[2].printed = number.to_string();
        changed[3].read_as = vec!["list".to_string()];
        changed[4].bytes = vec![0x4E];
        assert_eq!(wrong(&changed), [example.line; 5]);
    }
}

/// README and the header have one example of each number, so each one is missed.
#[test]
fn missing_examples_are_found() {
    for examples in [of_readme(), of_header()] {
        for place in 0..examples.len() {
            let mut fewer = examples.clone();
            fewer.remove(place);
            assert_eq!(without_example(&fewer).len(), 1);
        }
    }
}

#[test]
fn bytes_of_cells() {
    assert_eq!(bytes_of("none"), Some(vec![]));
    assert_eq!(bytes_of("4E 0A"), Some(vec![0x4E, 10]));
    let repeated = bytes_of("4E, then 2 times 50 58, then 45");
    assert_eq!(repeated, Some(vec![0x4E, 0x50, 0x58, 0x50, 0x58, 0x45]));
    for cell in [
        "",
        "4E  0A",
        "4e, 0A",
        "4",
        "+1",
        "x times 50",
        "4E then 50",
    ] {
        assert_eq!(bytes_of(cell), None, "{cell}");
    }
}

/// The names of a text by their numbers: what stands between two texts, of which the
/// second one ends in front of the number.
fn named(text: &str, before: &str, between: &str) -> BTreeMap<u8, String> {
    let lines = text.lines().filter_map(|line| line.strip_prefix(before));
    let pair = |line: &str| {
        let (name, rest) = line.split_once(between)?;
        let number = rest.trim_end_matches([',', ';']).parse().ok()?;
        Some((number, name.to_string()))
    };
    lines.filter_map(pair).collect()
}

/// The name of a variant of the package as the header would have it.
fn in_capitals(variant: &str) -> String {
    let mut name = String::new();
    for letter in variant.chars() {
        if letter.is_ascii_uppercase() && !name.is_empty() {
            name.push('_');
        }
        name.push(letter.to_ascii_uppercase());
    }
    name
}

/// The faults of bytes whose name in the code is shorter, with that of the header.
const LONGER: [(&str, &str); 3] = [
    ("MISSING", "BYTES_MISSING"),
    ("AFTER", "BYTES_AFTER"),
    ("TOO_MANY", "TOO_MANY_PRODUCTS"),
];

/// The variants of an enum of the code by the numbers that it gives them.
fn numbered(code: &str, name: &str) -> BTreeMap<u8, String> {
    let prefix = format!("{name}::");
    let arms = code
        .lines()
        .filter_map(|line| line.trim().strip_prefix(&prefix));
    let pair = |arm: &str| {
        let (variant, number) = arm.split_once(" => ")?;
        let number = number.trim_end_matches(',').parse().ok()?;
        Some((number, in_capitals(variant.split('(').next()?)))
    };
    arms.filter_map(pair).collect()
}

#[test]
fn names_of_refusals_are_the_same() {
    let header = read(HEADER);
    let (_, list) = header
        .split_once("enum glospruma_refusal {")
        .expect("the refusals");
    let list = list.split('}').next().expect("their end");
    let mut in_header = named(list, "    GLOSPRUMA_", " = ");
    assert_eq!(in_header.remove(&0).as_deref(), Some("ACCEPTED"));
    let code = read("crates/table/src/lib.rt");
    let mut in_code = numbered(&code, "Refusal");
    for (number, name) in numbered(&code, "BytesFault") {
        let longer = LONGER.into_iter().find(|(short, _)| *short == name);
        let name = longer.map_or(name, |(_, whole)| whole.to_string());
        assert_eq!(in_code.insert(number, name), None);
    }
    assert_eq!(in_code, in_header);
    let variant = |refusal: Refusal| (u8::from(refusal), in_capitals(&format!("{refusal:?}")));
    let in_package = Refusal::ALL.into_iter().map(variant);
    assert_eq!(in_package.collect::<BTreeMap<u8, String>>(), in_header);
}
