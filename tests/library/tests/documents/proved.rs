//! The table of claims in docs/PROVED.md: every theorem, definition and function is
//! defined in a file that its row names.

use crate::names::{defined_in, read};
use crate::tables::{misspelt, quoted, rows_under, Row};
use std::collections::BTreeSet;

const COLUMNS: [&str; 3] = ["claim", "theorem", "file"];

/// The paths of a cell; a file without a folder stands in the folder of the one
/// before it.
pub fn paths(cell: &str) -> Vec<String> {
    let mut folder = String::new();
    let path_of = |name: &str| {
        if let Some((before, _)) = name.rsplit_once('/') {
            folder = before.to_string();
            return name.to_string();
        }
        format!("{folder}/{name}")
    };
    quoted(cell).into_iter().map(path_of).collect()
}

/// The names that no file beside them defines.
fn wrong(rows: &[Row]) -> Vec<String> {
    let mut complaints = Vec::new();
    for row in rows {
        let paths = paths(&row.cells[2]);
        let defined: BTreeSet<String> = paths.iter().flat_map(|path| defined_in(path)).collect();
        let names = quoted(&row.cells[1]).into_iter();
        let missing = names.filter(|name| !defined.contains(*name));
        complaints.extend(missing.map(|name| format!("line {}: `{name}`", row.line)));
    }
    complaints
}

#[test]
fn theorems_stand_where_the_table_says() {
    let rows = rows_under(&read("docs/PROVED.md"), &COLUMNS);
    assert_eq!(wrong(&rows), Vec::<String>::new());
    let count = misspelt(&rows, 1, wrong);
    println!("docs/PROVED.md: {count} names");
    assert!(count >= rows.len());
}
