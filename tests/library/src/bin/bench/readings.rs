//! Times of reading stored tables into lent rooms, accepted and refused. Follows
//! document 01, section "The written form", and document 02, No. 3.

use crate::measure;
use crate::plain;
use crate::{random_tables, VARIABLES};
use glospruma::MAX_POINTS;
use library::TableRead;
use reference::generate;
use reference::table;
use std::hint::black_box;

/// The call that reads a stored table.
type ReadingCall = fn(&[u8], &mut [u16], &mut [u16]) -> TableRead;

/// Rooms for every point, on and free.
type Rooms = (Vec<u16>, Vec<u16>);

/// Makes one call, hidden from the optimizer.
fn make(call: ReadingCall, bytes: &[u8], (on, free): &mut Rooms) -> TableRead {
    call(black_box(bytes), black_box(on), black_box(free))
}

/// Times calls, after a comparison of what both sides return and write.
fn reading(title: &str, inputs: &[Vec<u8>]) {
    let rooms = (vec![0; MAX_POINTS], vec![0; MAX_POINTS]);
    let (mut library_rooms, mut plain_rooms) = (rooms.clone(), rooms);
    for bytes in inputs {
        let answer = make(library::read_table, bytes, &mut library_rooms);
        assert_eq!(
            answer,
            make(plain::read_into_rooms, bytes, &mut plain_rooms)
        );
        assert_eq!(library_rooms, plain_rooms);
    }
    measure::compare(
        &format!("read table, n 12, {title}"),
        inputs,
        |bytes| make(library::read_table, bytes, &mut library_rooms),
        |bytes| make(plain::read_into_rooms, bytes, &mut plain_rooms),
    );
}

/// Both sides refuse a damaged table with the same number and place.
fn assert_refused_alike() {
    let whole = table::write_stored(2, &[0, 3], &[1]);
    let damaged = generate::cuts(&whole).chain(generate::every_changed_byte(&whole));
    let mut rooms = (vec![0; 2], vec![0; 2]);
    for bytes in damaged.chain(generate::extensions(&whole)) {
        let answer = make(library::read_table, &bytes, &mut rooms);
        let expected = make(plain::read_into_rooms, &bytes, &mut rooms);
        assert_eq!(answer, expected, "{bytes:X?}");
    }
}

/// Times readings of tables of twelve variables.
pub fn readings() {
    assert_refused_alike();
    let random = random_tables(30, 20);
    let stored = random
        .iter()
        .map(|(n, on, free)| table::write_stored(*n, on, free));
    reading("random, half full", &stored.collect::<Vec<_>>());
    let points: Vec<u16> = (0..1 << VARIABLES).collect();
    let full = table::write_stored(VARIABLES, &points, &[]);
    let longer = [&full[..], &[0]].concat();
    reading("full", &[full]);
    reading("full and a byte", &[longer]);
}
