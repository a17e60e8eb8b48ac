//! The tables of calls and refusals beside the code: the calls are those that crate
//! `glospruma` exports, the header and the Rust package declare each, docs/CALLS.md
//! and the header say the same of its refusals, the numbers in the tables of refusals
//! are those that the code gives, and their words are those of the header and of the
//! package. So is the version.

use crate::names::{read, root};
use crate::tables::{misspelt, numbers, quoted, rows_under, Row};
use std::collections::BTreeSet;
use std::fs;

const HEADER: &str = "include/glospruma.h";
const CALLS: &str = "docs/CALLS.md";

/// The words that follow another one in a text, as far as they are names.
fn names_after<'a>(text: &'a str, before: &str) -> BTreeSet<&'a str> {
    let parts = text.split(before).skip(1);
    let name = |part: &'a str| {
        let is_end = |letter: char| !letter.is_alphanumeric() && letter != '_';
        part.split(is_end).next().expect("one part at least")
    };
    parts.map(name).collect()
}

/// The calls of a table that the code doesn't export, or that the table lacks.
fn other_than_exported(rows: &[Row]) -> Vec<String> {
    let code = read("crates/glospruma/src/lib.rt");
    let exported = names_after(&code, "pub extern \"C\" fn ");
    let named = rows.iter().flat_map(|row| quoted(&row.cells[0])).collect();
    let differing = exported.symmetric_difference(&named);
    differing.map(|name| name.to_string()).collect()
}

#[test]
fn calls_are_those_of_the_code() {
    for (document, title) in [
        ("README.md", "what it gives"),
        (CALLS, "takes"),
        ("docs/MEASURED.md", "bytes of stack"),
    ] {
        let rows = rows_under(&read(document), &["call", title]);
        assert_eq!(other_than_exported(&rows), Vec::<String>::new());
        assert_eq!(misspelt(&rows, 0, other_than_exported), rows.len());
    }
}

#[test]
fn calls_are_declared_for_rust() {
    let declarations = read("rust/src/raw.rs");
    for row in rows_under(&read(CALLS), &["call", "takes"]) {
        let name = quoted(&row.cells[0])[0];
        assert!(declarations.contains(&format!("    fn {name}(")), "{name}");
    }
}

/// The refusal numbers that the header names in the comment above a call.
fn refusals_in_header(header: &str, call: &str) -> Vec<usize> {
    let (before, _) = header
        .split_once(&format!(" {call}("))
        .unwrap_or_else(|| panic!("{call} is not declared"));
    let comment = before.rsplit("/*").next().expect("a comment before it");
    let (_, list) = comment.split_once("Refusal").expect("its refusals");
    let is_list = |letter: char| letter.is_ascii_digit() || "s ,;".contains(letter);
    numbers(
        list.split(|letter| !is_list(letter))
            .next()
            .expect("a list"),
    )
}

#[test]
fn refusals_of_calls_are_those_of_the_header() {
    let header = read(HEADER);
    for row in rows_under(&read(CALLS), &["call", "takes"]) {
        let in_header = refusals_in_header(&header, quoted(&row.cells[0])[0]);
        assert_eq!(numbers(&row.cells[3]), in_header, "line {}", row.line);
    }
}

/// The refusal numbers of the code: what the methods `number` give for the variants of their enums.
fn numbers_in_code() -> BTreeSet<usize> {
    let mut found = BTreeSet::new();
    for entry in fs::read_dir(root().join("crates")).expect("the folder of the crates") {
        let file = entry
            .expect("an entry of a folder")
            .path()
            .join("src/lib.rt");
        let text = fs::read_to_string(file).unwrap_or_default();
        for method in text.split("fn number(self) -> u8").skip(1) {
            let body = method.split("\n    }\n").next().expect("its end");
            let arms = body.lines().filter_map(|line| line.split_once(" => "));
            found.extend(
                arms.filter_map(|(_, number)| number.trim_end_matches(',').parse::<usize>().ok()),
            );
        }
    }
    found
}

/// The number in the first column of each row.
fn numbers_of(rows: &[Row]) -> Vec<usize> {
    rows.iter().flat_map(|row| numbers(&row.cells[0])).collect()
}

#[test]
fn refusals_are_those_of_the_code() {
    let of_calls = numbers_of(&rows_under(&read(CALLS), &["refusal"]));
    let mut of_texts = numbers_of(&rows_under(&read("docs/PLA.md"), &["refusal"]));
    of_texts.retain(|number| !of_calls.contains(number));
    let in_code: Vec<usize> = numbers_in_code().into_iter().collect();
    assert_eq!([&of_calls[..], &of_texts].concat(), in_code);
    let header = read(HEADER);
    let (_, list) = header
        .split_once("enum glospruma_refusal {")
        .expect("the refusals");
    let list = list.split('}').next().expect("their end");
    let in_header: Vec<usize> = list
        .lines()
        .filter_map(|line| Some(numbers(line.split_once(" = ")?.1)[0]))
        .collect();
    assert_eq!(in_header[1..], of_calls);
}

/// The texts of the refusals in the header, from 1 on.
fn texts_in_header(header: &str) -> Vec<String> {
    let (_, list) = header
        .split_once("glospruma_refusal_text(unsigned number) {")
        .expect("the texts");
    let list = list.split("default:").next().expect("their end");
    let texts = list.split("return \"").skip(2);
    let text = |part: &str| part.split('"').next().expect("its end").to_string();
    texts.map(text).collect()
}

#[test]
fn texts_of_refusals_are_the_same() {
    let rows = rows_under(&read(CALLS), &["refusal", "given exactly when"]);
    let of_calls: Vec<String> = rows.into_iter().map(|row| row.cells[1].clone()).collect();
    assert_eq!(texts_in_header(&read(HEADER)), of_calls);
    let of_package = glospruma::Refusal::ALL.map(|refusal| refusal.to_string());
    assert_eq!(of_package.to_vec(), of_calls);
}

#[test]
fn version_is_the_same() {
    let header = read(HEADER);
    let changes = read("CHANGELOG.md");
    let after = |text: &str, before: &str, end: char| {
        let rest = text.split_once(before).expect("a version").1;
        rest.split(end).next().expect("its end").to_string()
    };
    let version = after(&header, "#define GLOSPRUMA_VERSION \"", '"');
    assert_eq!(version, glospruma::VERSION);
    assert_eq!(version, after(&changes, "\n## ", '\n'));
}

#[test]
fn rooms_are_those_of_the_header() {
    let rows = rows_under(&read(CALLS), &["refusal"]);
    let advice = rows[6].cells[2].replace(',', "");
    let said: BTreeSet<usize> = numbers(&advice).into_iter().collect();
    let header = read(HEADER);
    let rooms = ["MAX_POINTS", "WRITTEN_ROOM", "FORM_ROOM", "REPORT_ROOM"].map(|name| {
        let parts = header.split_once(&format!("#define GLOSPRUMA_{name} "));
        numbers(parts.expect("a constant of the header").1)[0]
    });
    assert_eq!(said, rooms.into_iter().collect());
}
