//! Every pair of a stored table and its expected report in the folder `vectors`
//! beside this package: NAME.table in, NAME.expected out. Follows document 01,
//! section "The printed report".

use reference::report;
use std::fs;
use std::path::PathBuf;

const FOLDER: &str = concat!(env!("CARGO_MANIFEST_DIR"), "/../vectors");

/// The files of the folder with one extension, in order of name.
fn files_with(extension: &str) -> Vec<PathBuf> {
    let entries = fs::read_dir(FOLDER).expect("the folder of vectors can be read");
    let paths = entries.map(|entry| entry.expect("an entry can be read").path());
    let mut chosen: Vec<PathBuf> = paths
        .filter(|path| path.extension().is_some_and(|found| found == extension))
        .collect();
    chosen.sort();
    chosen
}

#[test]
fn reports_equal_the_expected_ones() {
    let tables = files_with("table");
    let expected_count = files_with("expected").len();
    assert!(!tables.is_empty(), "the folder holds no tables");
    assert_eq!(
        tables.len(),
        expected_count,
        "each table has an expected report"
    );
    for path in &tables {
        let bytes = fs::read(path).expect("the table can be read");
        let expected = fs::read(path.with_extension("expected")).expect("a report to compare with");
        let text = report::report(&bytes);
        assert!(text.as_bytes() == expected, "{}", path.display());
    }
    println!("{} pairs compared", tables.len());
}
