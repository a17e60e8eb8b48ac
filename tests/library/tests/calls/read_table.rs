//! The reader of stored tables compared with the reference. Follows document 01,
//! sections "The written form" and "Refusal numbers", and document 02, No. 3.

use crate::judges::{self, Refused};
use crate::lent::{room_lengths, Lent};
use crate::lent_calls;
use crate::stored::{self, ABOVE};
use crate::tables;
use crate::tally::Tally;
use glospruma::{MAX_POINTS, MAX_VARIABLES};
use library::settings::taken;
use library::TableRead;
use reference::calls;
use reference::generate::{self, Generator};
use reference::numbers::TableNumbers;

/// The numbers of the call in the reference's words.
pub fn numbers(found: &TableRead) -> TableNumbers {
    TableNumbers {
        refusal: found.refusal,
        place: found.place,
        variables: found.variables,
        on_count: found.on_count,
        free_count: found.free_count,
    }
}

/// Makes the call with rooms of these lengths; the reference makes it on equal
/// rooms, and then all numbers and all memory are compared. Hands back number and
/// place.
pub fn compare(tally: &mut Tally, bytes: &[u8], on_length: usize, free_length: usize) -> Refused {
    let lent = Lent::holding(bytes);
    let (mut on, mut free) = (Lent::room(on_length), Lent::room(free_length));
    let (mut on_answer, mut free_answer) = (on.part().to_vec(), free.part().to_vec());
    let expected = calls::read_table(bytes, &mut on_answer, &mut free_answer);
    let found = library::read_table(lent.part(), on.part_mut(), free.part_mut());
    assert_eq!(
        numbers(&found),
        expected,
        "rooms {on_length} and {free_length}, {bytes:X?}"
    );
    judges::assert_table(bytes, (found.refusal, found.place));
    lent.assert_as_lent();
    on.assert_front(&on_answer[..expected.on_count]);
    free.assert_front(&free_answer[..expected.free_count]);
    tally.add(found.refusal);
    (found.refusal, found.place)
}

/// Makes the call with every pair of the lengths of room to try.
fn compare_rooms(tally: &mut Tally, bytes: &[u8]) {
    let (mut on, mut free) = (vec![0; MAX_POINTS], vec![0; MAX_POINTS]);
    let expected = calls::read_table(bytes, &mut on, &mut free);
    for on_length in room_lengths(expected.on_count) {
        for free_length in room_lengths(expected.free_count) {
            compare(tally, bytes, on_length, free_length);
        }
    }
}

#[test]
fn every_small_table() {
    let mut tally = Tally::new("read table, every small table");
    for table in tables::small_tables() {
        compare_rooms(&mut tally, &stored::bytes_of(&table));
    }
    tally.finish(&[0, 7]);
}

#[test]
fn random_and_known_tables() {
    let mut tally = Tally::new("read table, random and known tables");
    for table in tables::random_tables(140).chain(tables::known_tables()) {
        compare_rooms(&mut tally, &stored::bytes_of(&table));
    }
    tally.finish(&[0, 7]);
}

#[test]
fn damaged_short_tables() {
    let mut tally = Tally::new("read table, damaged short tables");
    let mut generator = Generator::new(141);
    for bytes in stored::short_tables(&mut generator) {
        compare_rooms(&mut tally, &bytes);
        for damaged in stored::every_damage(&bytes) {
            compare(&mut tally, &damaged, 20, 20);
            compare(&mut tally, &damaged, 0, 0);
        }
    }
    tally.finish(&[0, 1, 2, 3, 7, 20, 21, 25, 26]);
}

#[test]
fn damaged_long_tables() {
    let mut tally = Tally::new("read table, damaged long tables");
    let mut generator = Generator::new(142);
    for n in 7..=MAX_VARIABLES {
        let table = generate::random_table(&mut generator, n, 60, 30);
        let bytes = stored::bytes_of(&table);
        for damaged in stored::some_damages(&mut generator, &bytes) {
            compare(&mut tally, &damaged, MAX_POINTS, MAX_POINTS);
        }
    }
    tally.finish(&[0, 1, 2, 3, 20, 21, 25, 26]);
}

#[test]
fn longest_tables() {
    let mut tally = Tally::new("read table, longest tables");
    for bytes in stored::longest() {
        compare_rooms(&mut tally, &bytes);
        compare(&mut tally, &bytes, 2 * MAX_POINTS, 70_000);
    }
    tally.finish(&[0, 1, 2, 7, 20, 21, 25, 26]);
}

#[test]
fn faulty_points() {
    let mut tally = Tally::new("read table, faulty points");
    for bytes in stored::faulty_points() {
        compare_rooms(&mut tally, &bytes);
    }
    tally.finish(&[0, 1, 2, 3, 7]);
}

#[test]
fn random_records() {
    let mut tally = Tally::new("read table, random records");
    let mut generator = Generator::new(143);
    for _ in 0..taken(100_000) {
        let bytes = stored::random_records(&mut generator);
        compare(&mut tally, &bytes, 2, 2);
        let bytes = generate::random_records(&mut generator, 6);
        compare(&mut tally, &bytes, 2, 2);
    }
    tally.finish(&[0, 1, 2, 3, 7, 20, 21, 25, 26]);
}

#[test]
fn order_of_refusals() {
    let refused = |bytes: &[u8]| {
        let found = lent_calls::read_table(bytes, &mut [], &mut []);
        (found.refusal, found.place)
    };
    assert_eq!(refused(&[]), (21, 0));
    assert_eq!(refused(&[0x4E, 0, 0x45, 0, 0]), (1, 0));
    assert_eq!(refused(&[0x4E, 0, 0x45, 1, 0]), (25, 3));
    let wide = [0x4E, ABOVE, 0x4F, 255, 255, 0x45, 1, 0];
    assert_eq!(refused(&wide), (1, 0));
    assert_eq!(refused(&[0x4E, 2, 0x4F, 1, 0, 0x45, 1, 1]), (25, 6));
    let large = [0x4E, 2, 0x4F, 4, 0, 0x4F, 4, 0, 0x45, 2, 0];
    assert_eq!(refused(&large), (2, 0));
    let late_large = [0x4E, 2, 0x4F, 1, 0, 0x4F, 1, 0, 0x44, 4, 0, 0x45, 3, 0];
    assert_eq!(refused(&late_large), (2, 0));
    let equal = [0x4E, 2, 0x4F, 1, 0, 0x44, 1, 0, 0x45, 2, 0];
    assert_eq!(refused(&equal), (3, 0));
    let rising = [0x4E, 2, 0x4F, 1, 0, 0x44, 2, 0, 0x45, 2, 0];
    assert_eq!(refused(&rising), (7, 0));
    assert_eq!(refused(&[0x4E, 2, 0x45, 0, 0]), (0, 0));
}
