//! Times of writing the form of a table and its report, on the worst of many
//! tables. Follows document 01, sections "The written form" and "The printed
//! report".

use crate::measure::{compare, slowest};
use crate::plain;
use crate::VARIABLES;
use glospruma::MAX_POINTS;
use reference::generate::{self, Generator};
use reference::table::{self, Table};
use std::fmt::Debug;
use std::hint::black_box;
use std::slice;

/// Tables of which the slowest counts.
const TABLES: usize = 300;

/// Variables kept by the completed function of each of them.
const KEPT: usize = 6;

/// Bytes for any form and any report of these tables.
const ROOM_LENGTH: usize = 8192;

/// A function of n variables that keeps six; some points of every other one are
/// free, and all of them on give a function that keeps six.
fn table(generator: &mut Generator, n: usize) -> Table {
    let on_percent = 5 + generator.below(91);
    let (_, all, _) = generate::closed_table(generator, n, n - KEPT, on_percent);
    let free_percent = if generator.chance(50) { 10 } else { 0 };
    let is_free = |_: &u16| generator.chance(free_percent);
    let (free, on) = all.into_iter().partition(is_free);
    (n, on, free)
}

/// Tables of n variables whose completed functions keep six.
fn tables(n: usize) -> Vec<Table> {
    let mut generator = Generator::new(2);
    let mut room = vec![0; MAX_POINTS];
    let mut tables = Vec::new();
    while tables.len() < TABLES {
        let (n, on, free) = table(&mut generator, n);
        let completion = library::complete(n, &on, &free, &mut room);
        if n - completion.degree == KEPT {
            tables.push((n, on, free));
        }
    }
    tables
}

/// Times a call that writes bytes on the input that takes the library longest,
/// after a comparison of what both sides return and write on every one.
fn byte_call<I, T: PartialEq + Debug>(
    title: &str,
    inputs: &[I],
    library_call: impl Fn(&I, &mut [u8]) -> T,
    plain_call: impl Fn(&I, &mut [u8]) -> T,
) {
    let (mut library_room, mut plain_room) = (vec![0; ROOM_LENGTH], vec![0; ROOM_LENGTH]);
    for input in inputs {
        let answer = library_call(input, &mut library_room);
        assert_eq!(answer, plain_call(input, &mut plain_room));
        assert_eq!(library_room, plain_room);
    }
    let worst = slowest(inputs, |input| {
        library_call(input, black_box(&mut library_room))
    });
    compare(
        &format!("{title}, worst of {}", inputs.len()),
        slice::from_ref(worst),
        |input| library_call(black_box(input), black_box(&mut library_room)),
        |input| plain_call(black_box(input), black_box(&mut plain_room)),
    );
}

/// Times writing the form of tables that keep six variables.
fn writing(title: &str, tables: &[Table]) {
    byte_call(
        title,
        tables,
        |(n, on, free), room| library::write_form(*n, on, free, room),
        |(n, on, free), room| plain::write_form(*n, on, free, room),
    );
}

/// Times writing forms and reports.
pub fn forms() {
    let wide = tables(VARIABLES);
    writing("write form, n 6", &tables(KEPT));
    writing("write form, n 12, six kept", &wide);
    let bytes_of = |(n, on, free): &Table| table::write_stored(*n, on, free);
    let inputs: Vec<Vec<u8>> = wide.iter().map(bytes_of).collect();
    byte_call(
        "report, n 12, six kept",
        &inputs,
        |bytes, room| library::report(bytes, room),
        |bytes, room| plain::report(bytes, room),
    );
}
