//! The expected reports in the folder `vectors`: the report call compared with
//! them whole, and the reader with the analysis in all lines but those of the
//! products. Follows document 01, section "The printed report", and document 02,
//! No. 3 and No. 4.

use crate::lent_calls;
use crate::report::compare_text;
use crate::tally::Tally;
use glospruma::MAX_POINTS;
use library::Analysis;
use std::fs;
use std::path::PathBuf;

const FOLDER: &str = concat!(env!("CARGO_MANIFEST_DIR"), "/../vectors");

/// Numbers with blanks between them, or `-` for none.
fn words(numbers: &[u16]) -> String {
    if numbers.is_empty() {
        return "-".to_string();
    }
    let words: Vec<String> = numbers.iter().map(|number| number.to_string()).collect();
    words.join(" ")
}

/// The variables of a mask, in index order: x1 is the highest of n bits.
fn sum(n: usize, mask: u16) -> String {
    let indices = (1..=n).filter(|index| mask >> (n - index) & 1 == 1);
    let names: Vec<String> = indices.map(|index| format!("x{index}")).collect();
    names.join(" + ")
}

/// The lines from the degree to the restriction, of a table with so many free
/// points.
fn analysis_lines(n: usize, free: usize, found: &Analysis, restriction: &[u16]) -> String {
    let simple = if n >= 9 && free > 0 { " simple" } else { "" };
    let canonical = words(&found.canonical.values[..found.canonical.len]);
    let mut text = format!("degree {}{simple}\ncanonical {canonical}\n", found.degree);
    let equations = &found.equations.values[..found.equations.len];
    for (place, &mask) in equations.iter().enumerate() {
        text += &format!("y{} = {}\n", place + 1, sum(n, mask));
    }
    text + &format!("restriction {}\n", words(restriction))
}

/// The report without its products.
fn report(bytes: &[u8]) -> String {
    let [mut on, mut free, mut room] = [[0; MAX_POINTS]; 3];
    let read = lent_calls::read_table(bytes, &mut on, &mut free);
    match read.refusal {
        0 => {}
        20..=27 => return format!("refused {} at {}\n", read.refusal, read.place),
        _ => return format!("refused {}\n", read.refusal),
    }
    let n = read.variables;
    let (on, free) = (&on[..read.on_count], &free[..read.free_count]);
    let found = lent_calls::analyse(n, on, free, &mut room);
    assert_eq!(found.refusal, 0);
    let counts = format!("variables {n}\non {} free {}\n", on.len(), free.len());
    counts + &analysis_lines(n, free.len(), &found, &room[..found.count])
}

/// The expected report as far as the restriction line.
fn without_products(expected: &str) -> String {
    let is_product = |line: &str| line.starts_with("product");
    if !expected.contains("restriction") {
        return expected.to_string();
    }
    let lines = expected.lines().filter(|line| !is_product(line));
    let kept: Vec<&str> = lines.filter(|line| *line != "refused 5").collect();
    kept.join("\n") + "\n"
}

/// The files of the folder with one extension, in order of name.
fn files_with(extension: &str) -> Vec<PathBuf> {
    let entries = fs::read_dir(FOLDER).expect("the folder of vectors can be read");
    let paths = entries.map(|entry| entry.expect("an entry can be read").path());
    let mut chosen: Vec<PathBuf> = paths
        .filter(|path| path.extension().is_some_and(|found| found == extension))
        .collect();
    chosen.sort();
    chosen
}

/// Each stored table with its expected report and its name.
fn pairs() -> Vec<(Vec<u8>, String, String)> {
    let tables = files_with("table");
    assert!(!tables.is_empty(), "the folder holds no tables");
    assert_eq!(tables.len(), files_with("expected").len());
    let read_pair = |path: &PathBuf| {
        let bytes = fs::read(path).expect("the table can be read");
        let expected = fs::read_to_string(path.with_extension("expected"));
        let expected = expected.expect("a report to compare with");
        (bytes, expected, path.display().to_string())
    };
    tables.iter().map(read_pair).collect()
}

#[test]
fn reports_but_for_their_products() {
    let pairs = pairs();
    for (bytes, expected, name) in &pairs {
        assert_eq!(report(bytes), without_products(expected), "{name}");
    }
    println!("vectors: {} reports compared", pairs.len());
}

#[test]
fn whole_reports() {
    let mut tally = Tally::new("report, vectors");
    for (bytes, expected, name) in pairs() {
        println!("{name}");
        compare_text(&mut tally, &bytes, expected.as_bytes());
    }
    tally.finish(&[0, 7]);
}
