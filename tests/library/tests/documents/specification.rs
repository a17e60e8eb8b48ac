//! docs/SPECIFICATION.md: every definition, theorem and function is defined in a
//! crate of its row, every crate of a row defines something that the row names,
//! and every must-fail edit is there.

use crate::names::{defined_by, has_edit, read, root};
use crate::tables::{misspelt, quoted, rows_under, Row};
use std::collections::BTreeSet;

/// The columns of a table of rules, those of document 01 and those of document 02.
const RULES: [[&str; 3]; 2] = [
    ["document 01", "carried by", "crate"],
    ["document 02", "carried by", "crate"],
];

/// The columns of a table of errors.
const ERRORS: [&str; 2] = ["document 01", "shut out by"];

/// The clauses of a cell, those about edits apart from the others.
fn clauses(cell: &str) -> (Vec<&str>, Vec<&str>) {
    let is_edit = |clause: &&str| clause.starts_with("edit ") || clause.starts_with("edits ");
    cell.split("; ").partition(is_edit)
}

/// The names of a clause; one in parentheses is a field of the record before them.
fn names(clause: &str) -> Vec<String> {
    let (mut found, mut record, mut inside) = (Vec::new(), "", false);
    for (place, part) in clause.split('`').enumerate() {
        if place % 2 == 0 {
            inside = match (part.rfind('('), part.rfind(')')) {
                (opened, closed) if opened == closed => inside,
                (opened, closed) => opened > closed,
            };
        } else if inside {
            found.push(format!("{record}.{part}"));
        } else {
            record = part;
            found.push(part.to_string());
        }
    }
    found
}

/// Whether a crate defines what a row names: a definition, a file of the crate, or
/// the crate itself.
fn defines(name: &str, defined: &BTreeSet<String>, cited: &str) -> bool {
    let within = cited.starts_with(&format!("crates/{name}/"));
    defined.contains(cited) || cited == name || (within && root().join(cited).is_file())
}

/// What is wrong in the names of a row, edits apart.
fn wrong_names(row: &Row, cited: &[String]) -> Vec<String> {
    let crates: Vec<(&str, BTreeSet<String>)> = row.cells[2]
        .split(", ")
        .map(|name| (name, defined_by(name)))
        .collect();
    let nowhere = cited.iter().filter(|cited| {
        let mut beside = crates.iter();
        !beside.any(|(name, defined)| defines(name, defined, cited))
    });
    let idle = crates.iter().filter(|(name, defined)| {
        let mut cited = cited.iter();
        !cited.any(|cited| defines(name, defined, cited))
    });
    let nowhere = nowhere.map(|cited| format!("line {}: `{cited}`", row.line));
    let idle = idle.map(|(name, _)| format!("line {}: crate {name} has none", row.line));
    nowhere.chain(idle).collect()
}

/// The edits of a clause, as crate and name: `one` and `two` of these and those.
fn edits(clause: &str) -> Vec<(&str, &str)> {
    let mut found = Vec::new();
    for part in clause.split(", ") {
        let (names, crates) = part.split_once(" of ").unwrap_or((part, ""));
        for edit in quoted(names) {
            found.extend(crates.split(" and ").map(|name| (name, edit)));
        }
    }
    found
}

/// The edits of a clause that are not there.
fn wrong_edits(row: &Row, clause: &str) -> Vec<String> {
    let found = edits(clause);
    assert!(!found.is_empty(), "line {}: no edit", row.line);
    let missing = found.iter().filter(|(name, edit)| !has_edit(name, edit));
    missing
        .map(|(name, edit)| format!("line {}: edit `{edit}` of {name}", row.line))
        .collect()
}

/// What is wrong in rows that may have a column of crates.
fn wrong(rows: &[Row]) -> Vec<String> {
    let mut complaints = Vec::new();
    for row in rows {
        let (of_edits, others) = clauses(&row.cells[1]);
        let cited: Vec<String> = others.iter().flat_map(|clause| names(clause)).collect();
        if row.cells.len() > 2 {
            complaints.extend(wrong_names(row, &cited));
        } else if !cited.is_empty() || of_edits.is_empty() {
            complaints.push(format!("line {}: no crate beside it", row.line));
        }
        complaints.extend(of_edits.iter().flat_map(|clause| wrong_edits(row, clause)));
    }
    complaints
}

fn check(titles: &[&str]) {
    let rows = rows_under(&read("docs/SPECIFICATION.md"), titles);
    assert_eq!(wrong(&rows), Vec::<String>::new());
    let count = misspelt(&rows, 1, wrong);
    println!("specification, {}: {count} names", titles.join(", "));
    assert!(count >= rows.len());
}

#[test]
fn rules_are_carried_as_said() {
    for columns in &RULES {
        check(columns);
    }
}

#[test]
fn errors_are_shut_out_as_said() {
    check(&ERRORS);
}

#[test]
fn every_table_is_read() {
    let text = read("docs/SPECIFICATION.md");
    let is_read = |titles: &[String]| titles == ERRORS || RULES.iter().any(|rule| titles == rule);
    let mut tables = crate::tables::tables(&text).into_iter();
    assert!(tables.all(|table| is_read(&table.titles)));
}

#[test]
fn names_of_a_clause() {
    let clause = "`one`, `Two` (`left`, `right`) and `three` (as said)";
    assert_eq!(
        names(clause),
        ["one", "Two", "Two.left", "Two.right", "three"]
    );
    assert_eq!(
        edits("edits `a` and `b` of c, `d` of e and f"),
        [("c", "a"), ("c", "b"), ("e", "d"), ("f", "d")]
    );
}
