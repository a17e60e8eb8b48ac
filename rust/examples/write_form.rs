//! Writes the form of a stored table. Standard input holds the table, standard
//! output gets the form's bytes. If the table or its form is refused, nothing is
//! written there, `refused N` and why go to standard error, with the place of the
//! byte at fault where there is one, and the exit status is 1. To run it, in the
//! folder of this package:
//!
//!     cargo run --example write_form <../tests/vectors/00005-p5.table | od -An -tx1
//!
//! Follows document 01, section "The written form".

use glospruma::{read_table, write_form, Refused, MAX_POINTS, TABLE_LENGTH, WRITTEN_ROOM};
use std::io::{self, Read, Write};
use std::process::ExitCode;

/// The form of a stored table. The rooms suffice for every table, so that no call
/// is refused for want of room.
fn form_of<'a>(stored: &[u8], room: &'a mut [u8; WRITTEN_ROOM]) -> Result<&'a [u8], Refused> {
    let (mut on, mut free) = ([0; MAX_POINTS], [0; MAX_POINTS]);
    let table = read_table(stored, &mut on, &mut free)?;
    let form = write_form(table.variables, table.on, table.free, room)?;
    Ok(form.bytes)
}

fn main() -> io::Result<ExitCode> {
    // One byte more than the longest table has: a longer input is then refused
    // instead of being cut.
    let mut stored = Vec::new();
    let mut input = io::stdin().take(TABLE_LENGTH as u64 + 1);
    input.read_to_end(&mut stored)?;
    let mut room = [0; WRITTEN_ROOM];
    match form_of(&stored, &mut room) {
        Ok(bytes) => {
            io::stdout().write_all(bytes)?;
            io::stdout().flush()?;
            Ok(ExitCode::SUCCESS)
        }
        Err(refused) => {
            eprintln!("{refused}");
            Ok(ExitCode::FAILURE)
        }
    }
}
