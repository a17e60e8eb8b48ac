//! Times of laying two stored tables side by side. Follows document 02, No. 1 and
//! No. 3.

use crate::measure;
use crate::plain;
use crate::{random_tables, VARIABLES};
use glospruma::COMPARISON_ROOM;
use library::Comparison;
use reference::generate;
use reference::table::{self, Table};
use std::hint::black_box;

/// The comparing call.
type ComparingCall = fn(&[u8], &[u8], usize, &mut [u8]) -> Comparison;

/// Two stored tables.
type Pair = (Vec<u8>, Vec<u8>);

/// The stored bytes of two tables.
fn pair((left, right): (&Table, &Table)) -> Pair {
    let bytes_of = |(n, on, free): &Table| table::write_stored(*n, on, free);
    (bytes_of(left), bytes_of(right))
}

/// Makes a whole comparison, hidden from the optimizer.
fn make(call: ComparingCall, (left, right): &Pair, room: &mut [u8]) -> Comparison {
    call(black_box(left), black_box(right), 0, black_box(room))
}

/// Times whole comparisons, after a comparison of what both sides return and write.
fn comparison(title: &str, pairs: &[Pair]) {
    let (mut library_room, mut plain_room) = (vec![0; COMPARISON_ROOM], vec![0; COMPARISON_ROOM]);
    for pair in pairs {
        let answer = make(library::compare, pair, &mut library_room);
        assert_eq!(answer, make(plain::compare, pair, &mut plain_room));
        assert_eq!(library_room, plain_room);
    }
    measure::compare(
        &format!("compare, n 12, {title}"),
        pairs,
        |pair| make(library::compare, pair, &mut library_room),
        |pair| make(plain::compare, pair, &mut plain_room),
    );
}

/// Both sides refuse a damaged table with the same number and place.
fn assert_refused_alike() {
    let whole = table::write_stored(2, &[0, 3], &[1]);
    let damaged = generate::cuts(&whole).chain(generate::every_changed_byte(&whole));
    for bytes in damaged.chain(generate::extensions(&whole)) {
        let pair = (bytes, whole.clone());
        let answer = make(library::compare, &pair, &mut []);
        assert_eq!(answer, make(plain::compare, &pair, &mut []), "{pair:X?}");
    }
}

/// Times comparisons of tables of twelve variables.
pub fn comparisons() {
    assert_refused_alike();
    let points: Vec<u16> = (0..1 << VARIABLES).collect();
    let on = (VARIABLES, points.clone(), vec![]);
    let free = (VARIABLES, vec![], points);
    let random = random_tables(30, 20);
    let turned = random.iter().cycle().skip(1);
    let pairs: Vec<Pair> = random.iter().zip(turned).map(pair).collect();
    comparison("random, half full", &pairs);
    comparison("full, every point differs", &[pair((&on, &free))]);
    comparison("full, equal", &[pair((&on, &on))]);
}
