//! Every crate of crates.txt has its folder, its row in the table of layers of
//! docs/ARCHITECTURE.md, in the same order and below the crates that it uses, and its
//! row in the table of sizes of docs/MEASURED.md; and no row or folder is left of a
//! crate that is gone.

use crate::names::{read, root};
use crate::tables::{misspelt, quoted, rows_under, Row};
use std::collections::BTreeSet;
use std::fs;

/// The crates of crates.txt, each with those that it uses.
fn listed() -> Vec<(String, Vec<String>)> {
    let text = read("crates.txt");
    let lines = text
        .lines()
        .filter(|line| !line.is_empty() && !line.starts_with('#'));
    let words = |text: &str| text.split_whitespace().map(str::to_string).collect();
    let entry = |line: &str| {
        let (name, uses) = line.split_once(':').expect("a name, a colon and uses");
        // The library for C is marked as one behind its name.
        let name = name.trim_end_matches(" staticlib").to_string();
        (name, words(uses))
    };
    lines.map(entry).collect()
}

/// The names of all crates.
pub fn names() -> BTreeSet<String> {
    listed().into_iter().map(|(name, _)| name).collect()
}

/// The crates that rows name, in order.
fn named(rows: &[Row]) -> Vec<&str> {
    rows.iter().flat_map(|row| quoted(&row.cells[0])).collect()
}

/// Crates without a row, and rows without a crate.
fn without_a_row(rows: &[Row]) -> Vec<String> {
    let of_rows: BTreeSet<String> = named(rows).into_iter().map(str::to_string).collect();
    let differing = of_rows.symmetric_difference(&names()).cloned().collect();
    differing
}

/// Crates that stand above one that they use; uses of the kit's crates are none of
/// the table's.
fn above_a_used_one(rows: &[Row]) -> Vec<String> {
    let order = named(rows);
    let place = |name: &str| order.iter().position(|other| *other == name);
    let mut complaints = Vec::new();
    for (name, uses) in listed() {
        let early = uses.iter().filter(|used| place(used) > place(&name));
        complaints.extend(early.map(|used| format!("`{name}` stands above `{used}`")));
    }
    complaints
}

#[test]
fn layers_are_those_of_the_list() {
    let mut rows = rows_under(&read("docs/ARCHITECTURE.md"), &["crate", "holds"]);
    assert_eq!(without_a_row(&rows), Vec::<String>::new());
    assert_eq!(above_a_used_one(&rows), Vec::<String>::new());
    let order: Vec<String> = listed().into_iter().map(|(name, _)| name).collect();
    assert_eq!(named(&rows), order);
    assert_eq!(misspelt(&rows, 0, without_a_row), names().len());
    rows.swap(0, 1);
    assert_eq!(above_a_used_one(&rows), ["`basis` stands above `gf2`"]);
}

#[test]
fn sizes_have_every_crate() {
    let rows = rows_under(&read("docs/MEASURED.md"), &["crate", "code"]);
    assert_eq!(without_a_row(&rows), Vec::<String>::new());
    assert_eq!(misspelt(&rows, 0, without_a_row), names().len());
}

#[test]
fn folders_are_those_of_the_list() {
    let entries = fs::read_dir(root().join("crates")).expect("the folder of the crates");
    let folders = entries.map(|entry| entry.expect("an entry of a folder").file_name());
    let folders: BTreeSet<String> = folders
        .map(|name| name.into_string().expect("a name in ASCII"))
        .collect();
    assert_eq!(folders, names());
}
