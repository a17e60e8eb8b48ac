//! The call that lays two stored tables side by side compared with the reference,
//! alone and in whole lists of calls. Follows document 02, No. 1 and No. 3, and
//! document 01, section "Refusal numbers".

use crate::judges;
use crate::lent::{room_lengths, Lent};
use crate::lent_calls;
use crate::stored::{self, ABOVE};
use crate::tables;
use crate::tally::{assert_counts, Tally};
use glospruma::{COMPARISON_ROOM, MAX_POINTS, MAX_VARIABLES, TABLE_LENGTH};
use library::settings::{some, taken};
use library::Comparison;
use reference::calls;
use reference::compare::{mark, DIFFERENCE_LENGTH, FREE, ON};
use reference::generate::{self, Generator};
use reference::numbers::ComparisonNumbers;
use reference::table::Table;

/// The numbers of the call in the reference's words.
pub fn numbers(found: &Comparison) -> ComparisonNumbers {
    ComparisonNumbers {
        refusal: found.refusal,
        place: found.place,
        records: found.records,
        next_point: found.next,
        total: found.total,
    }
}

/// Numbers of an accepted comparison.
fn compared(records: usize, next_point: usize, total: usize) -> ComparisonNumbers {
    ComparisonNumbers {
        refusal: 0,
        place: 0,
        records,
        next_point,
        total,
    }
}

/// Numbers of a comparison refused without a place.
fn refused(refusal: u8) -> ComparisonNumbers {
    ComparisonNumbers {
        refusal,
        ..Default::default()
    }
}

/// Two stored tables, the left one first.
type Pair<'a> = (&'a [u8], &'a [u8]);

/// What a comparison gives: its numbers and its records.
type Answer = (ComparisonNumbers, Vec<u8>);

/// Makes the call on tables that are lent already, with a room of so many bytes;
/// the reference makes it on an equal room, and then all numbers and the memory of
/// the room are compared.
fn compare_lent(tally: &mut Tally, (left, right): Pair, first: usize, length: usize) -> Answer {
    let mut room = Lent::room(length);
    let mut answer = room.part().to_vec();
    let expected = calls::compare(left, right, first, &mut answer);
    let found = library::compare(left, right, first, room.part_mut());
    assert_eq!(
        numbers(&found),
        expected,
        "first {first}, room {length}, left {left:X?}, right {right:X?}"
    );
    judges::assert_tables(left, right, (found.refusal, found.place));
    answer.truncate(DIFFERENCE_LENGTH * expected.records);
    room.assert_front(&answer);
    tally.add(found.refusal);
    (expected, answer)
}

/// As before, on copies of the tables in lent memory, which must stay as lent.
pub fn compare(tally: &mut Tally, (left, right): Pair, first: usize, length: usize) -> Answer {
    let (left, right) = (Lent::holding(left), Lent::holding(right));
    let answer = compare_lent(tally, (left.part(), right.part()), first, length);
    left.assert_as_lent();
    right.assert_as_lent();
    answer
}

/// Bytes of all records from a first point on, by the reference.
fn length_ahead((left, right): Pair, first: usize) -> usize {
    let mut room = vec![0; COMPARISON_ROOM];
    DIFFERENCE_LENGTH * calls::compare(left, right, first, &mut room).records
}

/// Makes the call with room for all records ahead, longer and shorter by some
/// bytes, and of less than one record.
fn compare_rooms(tally: &mut Tally, pair: Pair, first: usize) {
    let mut lengths = room_lengths(length_ahead(pair, first));
    lengths.extend([DIFFERENCE_LENGTH - 1, DIFFERENCE_LENGTH]);
    for length in lengths {
        compare(tally, pair, first, length);
    }
}

/// A table with about so many of a hundred points marked otherwise.
fn changed(generator: &mut Generator, table: &Table, percent: usize) -> Table {
    let (mut on, mut free) = (Vec::new(), Vec::new());
    for point in 0..1u16 << table.0 {
        let turn = match generator.chance(percent) {
            true => 1 + generator.below(2) as u8,
            false => 0,
        };
        match (mark(table, point) + turn) % 3 {
            ON => on.push(point),
            FREE => free.push(point),
            _ => {}
        }
    }
    (table.0, on, free)
}

/// Stored tables of as many variables in pairs: two random ones; and a random or a
/// known one beside itself with none, few, many or all of its points changed.
pub fn stored_pairs(seed: u64) -> impl Iterator<Item = (Vec<u8>, Vec<u8>)> {
    let mut generator = Generator::new(seed);
    let some_random = |seed| tables::random_tables(seed).step_by(3);
    let both_random = some_random(seed).zip(some_random(seed + 1));
    let lefts = some_random(seed + 2).chain(tables::known_tables());
    let one_changed = lefts.map(move |left| {
        let percent = [0, 1, 10, 50, 100][generator.below(5)];
        let right = changed(&mut generator, &left, percent);
        (left, right)
    });
    let all = both_random.chain(one_changed);
    all.map(|(left, right)| (stored::bytes_of(&left), stored::bytes_of(&right)))
}

/// The number of points of a stored table that is accepted.
fn size_of(bytes: &[u8]) -> usize {
    1 << bytes[1]
}

/// Every pair of tables, every first point, some beyond the end, and every room up
/// to three bytes more than all records ahead.
#[test]
fn every_call_of_one_and_two_variables() {
    let mut tally = Tally::new("compare, every call of one and two variables");
    for n in 1..=2 {
        let stored = tables::every_table(n).map(|table| stored::bytes_of(&table));
        let all: Vec<Vec<u8>> = stored.collect();
        for (left, right) in all
            .iter()
            .flat_map(|left| all.iter().map(move |right| (left, right)))
        {
            for first in (0..=(1 << n) + 1).chain([usize::MAX]) {
                for length in 0..=length_ahead((left, right), first) + 3 {
                    compare(&mut tally, (left, right), first, length);
                }
            }
        }
    }
    tally.finish(&[0, 11]);
}

#[test]
fn random_and_known_tables() {
    let mut tally = Tally::new("compare, random and known tables");
    let mut generator = Generator::new(212);
    for (left, right) in stored_pairs(210) {
        let size = size_of(&left);
        for first in [0, 1 + generator.below(size), size, size + 1] {
            compare_rooms(&mut tally, (&left, &right), first);
        }
    }
    tally.finish(&[0, 11]);
}

/// Calls from a differing point on, with room and without, and from the point
/// behind it.
#[test]
fn first_points_about_a_difference() {
    let mut tally = Tally::new("compare, first points about a difference");
    let mut generator = Generator::new(215);
    for (left, right) in stored_pairs(213) {
        let pair = (&left[..], &right[..]);
        let (whole, records) = compare(&mut tally, pair, 0, COMPARISON_ROOM);
        if whole.total == 0 {
            continue;
        }
        let place = generator.below(whole.total);
        let behind = &records[DIFFERENCE_LENGTH * place..];
        let point = usize::from(u16::from_le_bytes([behind[0], behind[1]]));
        let (found, rest) = compare(&mut tally, pair, point, COMPARISON_ROOM);
        let end = size_of(&left);
        assert_eq!(found, compared(whole.total - place, end, whole.total));
        assert_eq!(rest, behind);
        let (_, rest) = compare(&mut tally, pair, point + 1, COMPARISON_ROOM);
        assert_eq!(rest, behind[DIFFERENCE_LENGTH..]);
        let (stopped, _) = compare(&mut tally, pair, point, DIFFERENCE_LENGTH - 1);
        assert_eq!(stopped, compared(0, point, whole.total));
    }
    tally.finish(&[0]);
}

/// With left and right exchanged the marks are exchanged and nothing else.
#[test]
fn sides_exchanged() {
    let mut tally = Tally::new("compare, sides exchanged");
    let mut generator = Generator::new(218);
    for (left, right) in stored_pairs(216) {
        let first = generator.below(size_of(&left) + 1);
        let length = random_length(&mut generator, length_ahead((&left, &right), 0));
        let found = compare(&mut tally, (&left, &right), first, length);
        let (numbers, mut records) = compare(&mut tally, (&right, &left), first, length);
        for record in records.chunks_exact_mut(DIFFERENCE_LENGTH) {
            record.swap(2, 3);
        }
        assert_eq!(found, (numbers, records));
    }
    tally.finish(&[0]);
}

/// A table beside itself, at the same place of memory and as a copy.
#[test]
fn equal_tables() {
    let mut tally = Tally::new("compare, equal tables");
    for table in tables::random_tables(219).chain(tables::small_tables()) {
        let (size, bytes) = (1 << table.0, stored::bytes_of(&table));
        let lent = Lent::holding(&bytes);
        for first in [0, size / 2, size] {
            let none = (compared(0, size, 0), vec![]);
            let same = (lent.part(), lent.part());
            assert_eq!(compare_lent(&mut tally, same, first, 9), none);
            assert_eq!(compare(&mut tally, (&bytes, &bytes), first, 9), none);
        }
        lent.assert_as_lent();
    }
    tally.finish(&[0]);
}

/// Left and right are parts of the same memory that overlap.
#[test]
fn overlapping_memory() {
    let mut tally = Tally::new("compare, overlapping memory");
    let mut generator = Generator::new(220);
    for table in tables::random_tables(221) {
        let lent = Lent::holding(&stored::bytes_of(&table));
        let whole = lent.part();
        let start = generator.below(whole.len());
        let end = start + generator.below(whole.len() - start + 1);
        for part in [&whole[start..end], &whole[start..], &whole[..end]] {
            compare_lent(&mut tally, (whole, part), 0, 40);
            compare_lent(&mut tally, (part, whole), 0, 40);
        }
        lent.assert_as_lent();
    }
    tally.finish(&[0, 20, 21, 25]);
}

/// Every point differs, each in the same way; room for all records and for all but
/// one of them.
#[test]
fn all_points_different() {
    let mut tally = Tally::new("compare, all points different");
    assert_eq!(DIFFERENCE_LENGTH * MAX_POINTS, COMPARISON_ROOM);
    for n in 1..=MAX_VARIABLES {
        let size = 1 << n;
        let points: Vec<u16> = (0..size as u16).collect();
        let [off, on, free] = [
            (n, vec![], vec![]),
            (n, points.clone(), vec![]),
            (n, vec![], points),
        ]
        .map(|table| stored::bytes_of(&table));
        assert_eq!(on.len() == TABLE_LENGTH, n == MAX_VARIABLES);
        for (left, right) in [(&off, &on), (&on, &free), (&free, &off)] {
            let mut call = |first, length| compare(&mut tally, (left, right), first, length).0;
            let exact = DIFFERENCE_LENGTH * size;
            assert_eq!(call(0, exact), compared(size, size, size));
            assert_eq!(call(0, exact - 1), compared(size - 1, size - 1, size));
            assert_eq!(call(1, exact), compared(size - 1, size, size));
            assert_eq!(call(size - 1, exact), compared(1, size, size));
            assert_eq!(call(size, exact), compared(0, size, size));
        }
    }
    tally.finish(&[0]);
}

/// 2^n is the last first point; one further, and at the largest numbers, the call
/// is refused whatever the room.
#[test]
fn the_end_and_beyond() {
    let mut tally = Tally::new("compare, the end and beyond");
    let mut generator = Generator::new(222);
    for n in 1..=MAX_VARIABLES {
        let table = generate::random_table(&mut generator, n, 40, 30);
        let other = changed(&mut generator, &table, 50);
        let total = (0..1u16 << n).filter(|&point| mark(&table, point) != mark(&other, point));
        let (size, total) = (1 << n, total.count());
        let (left, right) = (stored::bytes_of(&table), stored::bytes_of(&other));
        for length in [0, 4, COMPARISON_ROOM] {
            let mut call = |first| compare(&mut tally, (&left, &right), first, length).0;
            assert_eq!(call(size), compared(0, size, total));
            for first in above(size) {
                assert_eq!(call(first), refused(11));
            }
        }
    }
    tally.finish(&[0, 11]);
}

/// First points above 2^n, among them those that a narrower number would take for
/// one below.
fn above(size: usize) -> impl Iterator<Item = usize> {
    let wrapping = [1 << 16, 1 << 32, 1 << 63].map(|wrap| wrap + size / 2);
    [size + 1, usize::MAX - 1, usize::MAX]
        .into_iter()
        .chain(wrapping)
}

/// Different numbers of variables are refused, whatever the first point.
#[test]
fn other_numbers_of_variables() {
    let mut tally = Tally::new("compare, other numbers of variables");
    let mut generator = Generator::new(223);
    let kinds = (1..=MAX_VARIABLES).flat_map(|n| (1..=MAX_VARIABLES).map(move |other| (n, other)));
    for (n, other) in some(kinds) {
        let tables = [n, other].map(|n| generate::random_table(&mut generator, n, 10, 10));
        let [left, right] = tables.map(|table| stored::bytes_of(&table));
        for first in [0, 1 << n.min(other), 1 << n.max(other), usize::MAX] {
            let (found, _) = compare(&mut tally, (&left, &right), first, 40);
            let expected = match n == other {
                true if first <= 1 << n => 0,
                true => 11,
                false => 10,
            };
            assert_eq!(found.refusal, expected, "n {n} and {other}, first {first}");
        }
    }
    tally.finish(&[0, 10, 11]);
}

/// Stored bytes that are refused, and with which number and place; some have a fault
/// of a later number too.
const FAULTY: [(u8, usize, &[u8]); 14] = [
    (21, 0, &[]),
    (25, 3, &[0x4E, 2, 0x45, 1, 0]),
    (26, 5, &[0x4E, 2, 0x45, 0, 0, 0]),
    (25, 6, &[0x4E, 0, 0x4F, 9, 9, 0x45, 2, 0]),
    (20, 2, &[0x4E, 2, 0x50, 0x45, 1, 0]),
    (1, 0, &[0x4E, 0, 0x45, 0, 0]),
    (1, 0, &[0x4E, 255, 0x45, 0, 0]),
    (1, 0, &[0x4E, ABOVE, 0x4F, 255, 255, 0x45, 1, 0]),
    (2, 0, &[0x4E, 2, 0x4F, 4, 0, 0x45, 1, 0]),
    (2, 0, &[0x4E, 2, 0x4F, 1, 0, 0x44, 0, 1, 0x45, 2, 0]),
    (2, 0, &[0x4E, 2, 0x4F, 4, 0, 0x44, 4, 0, 0x45, 2, 0]),
    (3, 0, &[0x4E, 2, 0x4F, 1, 0, 0x44, 1, 0, 0x45, 2, 0]),
    (3, 0, &[0x4E, 2, 0x4F, 3, 0, 0x4F, 2, 0, 0x45, 2, 0]),
    (3, 0, &[0x4E, 3, 0x4F, 7, 0, 0x44, 2, 0, 0x45, 2, 0]),
];

/// Stored tables of two variables and of three.
const ACCEPTED: [&[u8]; 4] = [
    &[0x4E, 2, 0x45, 0, 0],
    &[0x4E, 2, 0x4F, 0, 0, 0x44, 1, 0, 0x45, 2, 0],
    &[0x4E, 3, 0x45, 0, 0],
    &[0x4E, 3, 0x4F, 1, 0, 0x45, 1, 0],
];

/// The left table's refusal comes first, then the right one's, then 10, then 11; the
/// place is that in the table whose number is given.
#[test]
fn order_of_refusals() {
    let mut tally = Tally::new("compare, order of refusals");
    let accepted = ACCEPTED.map(|bytes| (0, 0, bytes));
    let all = || FAULTY.into_iter().chain(accepted);
    for (left_refusal, left_place, left) in all() {
        for (right_refusal, right_place, right) in all() {
            let differs = u8::from(left.get(1) != right.get(1));
            for (first, beyond) in [(0, 0), (4, 0), (9, 11), (usize::MAX, 11)] {
                let of_left = (left_refusal, left_place);
                let of_right = (right_refusal, right_place);
                let order = [of_left, of_right, (10 * differs, 0), (beyond, 0)];
                let expected = order.into_iter().find(|refused| refused.0 != 0);
                let (found, _) = compare(&mut tally, (left, right), first, 20);
                let context = || format!("left {left:X?}, right {right:X?}, first {first}");
                let refused = (found.refusal, found.place);
                assert_eq!(refused, expected.unwrap_or((0, 0)), "{}", context());
            }
        }
    }
    tally.finish(&[0, 1, 2, 3, 10, 11, 20, 21, 25, 26]);
}

/// Every damage to the left and to the right of short tables, beside the whole
/// table and beside themselves.
#[test]
fn damaged_short_tables() {
    let mut tally = Tally::new("compare, damaged short tables");
    let mut generator = Generator::new(224);
    for bytes in stored::short_tables(&mut generator) {
        for damaged in stored::every_damage(&bytes) {
            compare(&mut tally, (&damaged, &bytes), 0, 40);
            compare(&mut tally, (&bytes, &damaged), 3, 5);
            compare(&mut tally, (&damaged, &damaged), 5, 40);
        }
    }
    tally.finish(&[0, 1, 2, 3, 10, 11, 20, 21, 25, 26]);
}

#[test]
fn damaged_long_tables() {
    let mut tally = Tally::new("compare, damaged long tables");
    let mut generator = Generator::new(225);
    for n in 7..=MAX_VARIABLES {
        let bytes = stored::bytes_of(&generate::random_table(&mut generator, n, 60, 30));
        for damaged in stored::some_damages(&mut generator, &bytes) {
            compare(&mut tally, (&damaged, &bytes), 0, 40);
            compare(&mut tally, (&bytes, &damaged), 0, 40);
        }
    }
    tally.finish(&[0, 1, 2, 3, 20, 21, 25, 26]);
}

/// Inputs about the longest table and faulty points, each beside the next one and
/// beside the full table.
#[test]
fn longest_tables_and_faulty_points() {
    let mut tally = Tally::new("compare, longest tables and faulty points");
    let full = stored::bytes_of(&generate::table_of(MAX_VARIABLES, |_| true));
    let inputs = [stored::longest(), stored::faulty_points()].concat();
    for pair in inputs.windows(2) {
        for first in [0, MAX_POINTS / 2, MAX_POINTS + 1] {
            compare(&mut tally, (&pair[0], &pair[1]), first, COMPARISON_ROOM);
            compare(&mut tally, (&full, &pair[0]), first, COMPARISON_ROOM);
            compare(&mut tally, (&pair[0], &full), first, 40);
        }
    }
    tally.finish(&[0, 1, 2, 3, 10, 11, 20, 21, 25, 26]);
}

#[test]
fn random_records() {
    let mut tally = Tally::new("compare, random records");
    let mut generator = Generator::new(226);
    for _ in 0..taken(100_000) {
        let left = stored::random_records(&mut generator);
        let mut right = stored::random_records(&mut generator);
        if generator.chance(80) {
            right[1] = left[1];
        }
        let first = [0, 0, 1, 6, MAX_POINTS + 1][generator.below(5)];
        compare(&mut tally, (&left, &right), first, 9);
    }
    tally.finish(&[0, 1, 2, 3, 10, 11, 20, 25, 26]);
}

/// Calls of lists: all, those that stopped for want of room, those that couldn't
/// move on, and those that filled the room to its last byte with the last record.
#[derive(Default)]
struct Counts {
    calls: usize,
    stopped: usize,
    stuck: usize,
    filled: usize,
}

/// A room of less than a record, one record, or any part of all records.
fn random_length(generator: &mut Generator, all: usize) -> usize {
    match generator.below(5) {
        0 => generator.below(DIFFERENCE_LENGTH),
        1 => DIFFERENCE_LENGTH,
        2 => DIFFERENCE_LENGTH * generator.below(40),
        _ => generator.below(all + 20),
    }
}

/// A call that is refused: one of the tables is spoilt, or the first point is above
/// 2^n.
fn check_refused(tally: &mut Tally, generator: &mut Generator, (left, right): Pair) {
    let (_, _, spoilt) = FAULTY[generator.below(FAULTY.len())];
    let beyond = size_of(left) + 1 + generator.below(9);
    let (left, right, first) = match generator.below(3) {
        0 => (spoilt, right, 0),
        1 => (left, spoilt, beyond),
        _ => (left, right, beyond),
    };
    let length = random_length(generator, COMPARISON_ROOM);
    let (found, _) = compare(tally, (left, right), first, length);
    assert_ne!(found.refusal, 0);
}

/// A list of calls from point 0 to the end and one more there, each from the point
/// that the one before returned, refused calls mixed in: every call that can move
/// on does, all have the same total, and the records joined are the whole listing.
fn check_list(tally: &mut Tally, generator: &mut Generator, counts: &mut Counts, pair: Pair) {
    let (whole, records) = compare(tally, pair, 0, COMPARISON_ROOM);
    let end = size_of(pair.0);
    assert_eq!(whole.next_point, end);
    let (mut first, mut joined, mut at_end) = (0, Vec::new(), false);
    while !at_end {
        if generator.chance(20) {
            check_refused(tally, generator, pair);
            continue;
        }
        at_end = first == end;
        let length = random_length(generator, records.len());
        let (found, part) = compare(tally, pair, first, length);
        assert_eq!(found.total, whole.total);
        assert!(found.next_point > first || length < DIFFERENCE_LENGTH || at_end);
        counts.calls += 1;
        counts.stopped += usize::from(found.next_point < end);
        counts.stuck += usize::from(found.next_point == first && !at_end);
        counts.filled += usize::from(found.next_point == end && part.len() == length && length > 0);
        first = found.next_point;
        joined.extend(part);
    }
    assert_eq!(joined, records);
}

#[test]
fn lists_of_calls() {
    let mut tally = Tally::new("compare, lists of calls");
    let mut generator = Generator::new(229);
    let mut counts = Counts::default();
    for (left, right) in stored_pairs(227) {
        check_list(&mut tally, &mut generator, &mut counts, (&left, &right));
    }
    println!(
        "{} calls in lists, {} stopped by the room, {} without a step, {} with a room just full at \
         the end",
        counts.calls, counts.stopped, counts.stuck, counts.filled
    );
    let kinds = [counts.stopped, counts.stuck, counts.filled];
    assert_counts("compare, calls in lists", &kinds, 100);
    tally.finish(&[0, 1, 2, 3, 11, 20, 21, 25, 26]);
}

/// Off, on and free against each other at the points from 0 to 8: on against free
/// differs, once.
#[test]
fn each_pair_of_marks() {
    let left = stored::bytes_of(&(9, vec![3, 4, 5, 300], vec![6, 7, 8]));
    let right = stored::bytes_of(&(9, vec![1, 4, 7], vec![2, 5, 8, 300]));
    let records = [
        [1, 0, 0, 1],
        [2, 0, 0, 2],
        [3, 0, 1, 0],
        [5, 0, 1, 2],
        [6, 0, 2, 0],
        [7, 0, 2, 1],
        [44, 1, 1, 2],
    ];
    let mut room = [9; 30];
    let found = lent_calls::compare(&left, &right, 0, &mut room);
    assert_eq!(numbers(&found), compared(7, 512, 7));
    assert_eq!(room[..], [&records.concat()[..], &[9, 9]].concat());
    let mut room = [9; 10];
    let found = lent_calls::compare(&left, &right, 4, &mut room);
    assert_eq!(numbers(&found), compared(2, 7, 7));
    assert_eq!(room[..], [&records[3..5].concat()[..], &[9, 9]].concat());
    let found = lent_calls::compare(&left, &right, 513, &mut room);
    assert_eq!(numbers(&found), refused(11));
    assert_eq!(room[..], [&records[3..5].concat()[..], &[9, 9]].concat());
}
