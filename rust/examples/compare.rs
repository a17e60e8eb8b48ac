//! Prints where two stored tables differ. Its two arguments name the files that
//! hold them; standard output gets a line for each point that they mark
//! differently, rising, with the mark in the left table and the mark in the right
//! one, and then the number of these points. If a table is refused, nothing is
//! printed there, its file, `refused N` and why go to standard error, with the place
//! of the byte at fault where there is one, and the exit status is 1. To run it, in
//! the folder of this package:
//!
//!     cargo run --example compare ../tests/vectors/00004-p4.table ../tests/vectors/00006-p6.table
//!
//! Follows document 02, No. 1.

use glospruma::{differences, read_table, Difference, MAX_POINTS, TABLE_LENGTH};
use std::env;
use std::error::Error;
use std::fs::File;
use std::io::{self, Read, Write};
use std::process::ExitCode;

/// The table of a file. It is read alone as well, since a comparison doesn't tell
/// which table it refuses.
fn load(path: &str) -> Result<Vec<u8>, String> {
    // One byte more than the longest table has: a longer file is then refused
    // instead of being cut.
    let limit = TABLE_LENGTH as u64 + 1;
    let mut stored = Vec::new();
    let read = File::open(path).and_then(|file| file.take(limit).read_to_end(&mut stored));
    read.map_err(|error| format!("{path}: {error}"))?;
    let (mut on, mut free) = ([0; MAX_POINTS], [0; MAX_POINTS]);
    let alone = read_table(&stored, &mut on, &mut free);
    alone.map_err(|refused| format!("{path}: {refused}"))?;
    Ok(stored)
}

fn compare(left: &str, right: &str) -> Result<(), Box<dyn Error>> {
    let (left, right) = (load(left)?, load(right)?);
    // Still to be refused: number 10, tables with different numbers of variables.
    let found = differences(&left, &right)?;
    let total = found.total();
    let mut output = io::BufWriter::new(io::stdout());
    for Difference { point, left, right } in found {
        writeln!(output, "point {point} left {left} right {right}")?;
    }
    writeln!(output, "total {total}")?;
    Ok(output.flush()?)
}

fn main() -> ExitCode {
    let arguments: Vec<String> = env::args().collect();
    let done = match &arguments[..] {
        [_, left, right] => compare(left, right),
        _ => Err("compare LEFT RIGHT".into()),
    };
    match done {
        Ok(()) => ExitCode::SUCCESS,
        Err(error) => {
            eprintln!("{error}");
            ExitCode::FAILURE
        }
    }
}
