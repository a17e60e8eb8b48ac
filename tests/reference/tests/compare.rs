//! Two stored tables side by side: worked examples, the order of refusals, rooms
//! and first points. Follows document 02, No. 1 and No. 3.

use reference::calls;
use reference::compare::{self, DIFFERENCE_LENGTH};
use reference::generate::{self, Generator};
use reference::numbers::ComparisonNumbers;
use reference::table::{write_records, write_stored, Table, MOST_POINTS, MOST_VARIABLES};

const FILL: u8 = 0xA5;

/// Numbers of an accepted comparison.
fn compared(records: usize, next_point: usize, total: usize) -> ComparisonNumbers {
    ComparisonNumbers {
        refusal: 0,
        place: 0,
        records,
        next_point,
        total,
    }
}

/// The call with a room of so many bytes: its numbers and its records. The rest of
/// the room must be as lent.
fn call(
    left: &[u8],
    right: &[u8],
    first: usize,
    length: usize,
) -> (ComparisonNumbers, Vec<[u8; DIFFERENCE_LENGTH]>) {
    let mut room = vec![FILL; length];
    let numbers = calls::compare(left, right, first, &mut room);
    let (records, rest) = room.split_at(DIFFERENCE_LENGTH * numbers.records);
    assert!(rest.iter().all(|&byte| byte == FILL));
    let records = records.chunks(DIFFERENCE_LENGTH);
    let record = |bytes: &[u8]| bytes.try_into().expect("a whole record");
    (numbers, records.map(record).collect())
}

/// Two tables of four variables that have off, on and free against each other at
/// the points from 0 to 8, and nothing behind them.
fn each_pair_of_marks() -> (Vec<u8>, Vec<u8>) {
    let left = write_stored(4, &[3, 4, 5], &[6, 7, 8]);
    let right = write_stored(4, &[1, 4, 7], &[2, 5, 8]);
    (left, right)
}

/// Six of nine pairs of marks differ, and on against free is one difference.
#[test]
fn marks_that_differ() {
    let (left, right) = each_pair_of_marks();
    let records = vec![
        [1, 0, 0, 1],
        [2, 0, 0, 2],
        [3, 0, 1, 0],
        [5, 0, 1, 2],
        [6, 0, 2, 0],
        [7, 0, 2, 1],
    ];
    assert_eq!(call(&left, &right, 0, 24), (compared(6, 16, 6), records));
}

#[test]
fn first_points_and_rooms() {
    let (left, right) = each_pair_of_marks();
    let numbers = |first, length| call(&left, &right, first, length).0;
    assert_eq!(numbers(0, 0), compared(0, 1, 6));
    assert_eq!(numbers(0, 3), compared(0, 1, 6));
    assert_eq!(numbers(0, 4), compared(1, 2, 6));
    assert_eq!(numbers(0, 12), compared(3, 5, 6));
    assert_eq!(numbers(0, 15), compared(3, 5, 6));
    assert_eq!(numbers(0, 23), compared(5, 7, 6));
    assert_eq!(numbers(4, 0), compared(0, 5, 6));
    assert_eq!(numbers(4, 12), compared(3, 16, 6));
    assert_eq!(numbers(5, 8), compared(2, 7, 6));
    assert_eq!(numbers(7, 99), compared(1, 16, 6));
    assert_eq!(numbers(8, 0), compared(0, 16, 6));
    assert_eq!(numbers(16, 0), compared(0, 16, 6));
    let refused = ComparisonNumbers {
        refusal: 11,
        ..ComparisonNumbers::default()
    };
    assert_eq!(numbers(17, 99), refused);
    assert_eq!(numbers(usize::MAX, 0), refused);
    assert_eq!(call(&left, &right, 6, 4).1, [[6, 0, 2, 0]]);
}

/// The low byte of a point comes first.
#[test]
fn points_of_two_bytes() {
    let left = write_stored(10, &[255, 256, 770], &[]);
    let right = write_stored(10, &[256], &[513, 770]);
    let records = vec![[255, 0, 1, 0], [1, 2, 0, 2], [2, 3, 1, 2]];
    assert_eq!(call(&left, &right, 0, 14), (compared(3, 1024, 3), records));
}

/// Bytes that are refused, each with its number and place.
fn faulty() -> [(u8, usize, Vec<u8>); 7] {
    [
        (20, 2, vec![0x4E, 2, 0x50, 0x45, 1, 0]),
        (21, 0, vec![]),
        (25, 6, vec![0x4E, 2, 0x4F, 1, 0, 0x45, 2, 0]),
        (26, 5, vec![0x4E, 2, 0x45, 0, 0, 0]),
        (1, 0, write_stored(MOST_VARIABLES + 1, &[], &[])),
        (2, 0, write_stored(2, &[4], &[])),
        (3, 0, write_records(2, &[(0x4F, 1), (0x44, 1)])),
    ]
}

/// All tests of the left table come before any of the right one's; then come the
/// numbers of variables, then the first point. A place is that in the table whose
/// number is given.
#[test]
fn order_of_refusals() {
    let refused = |left: &[u8], right: &[u8], first| {
        let (numbers, _) = call(left, right, first, 40);
        let ComparisonNumbers { refusal, place, .. } = numbers;
        let expected = ComparisonNumbers {
            refusal,
            place,
            ..ComparisonNumbers::default()
        };
        assert!(numbers == expected || refusal == 0);
        (refusal, place)
    };
    let (narrow, wide) = (write_stored(2, &[1], &[]), write_stored(3, &[1], &[]));
    for (number, place, bytes) in faulty() {
        for (_, _, other) in faulty() {
            assert_eq!(refused(&bytes, &other, 99), (number, place));
        }
        for other in [&narrow, &wide] {
            assert_eq!(refused(&bytes, other, 99), (number, place));
            assert_eq!(refused(other, &bytes, 99), (number, place));
        }
    }
    assert_eq!(refused(&narrow, &wide, 99), (10, 0));
    assert_eq!(refused(&wide, &narrow, 0), (10, 0));
    assert_eq!(refused(&narrow, &narrow, 5), (11, 0));
    assert_eq!(refused(&narrow, &narrow, 4), (0, 0));
}

/// The lists of the table of n variables whose marks are the digits of a number to
/// base 3, that of point 0 lowest, and the digits.
fn numbered(n: usize, number: usize) -> (Table, Vec<u8>) {
    let digit = |point: u32| (number / 3usize.pow(point) % 3) as u8;
    let marks: Vec<u8> = (0..1 << n).map(digit).collect();
    let of_mark = |mark| {
        let points = 0..1u16 << n;
        let chosen = points.filter(|&point| marks[usize::from(point)] == mark);
        chosen.collect()
    };
    ((n, of_mark(1), of_mark(2)), marks)
}

/// Every pair of tables of one and two variables against their digits.
#[test]
fn small_tables_by_their_digits() {
    for n in 1..=2 {
        let tables = || (0..3usize.pow(1 << n)).map(|number| numbered(n, number));
        for (left, left_marks) in tables() {
            for (right, right_marks) in tables() {
                let pairs = left_marks.iter().zip(&right_marks).enumerate();
                let differing = pairs.filter(|(_, (left, right))| left != right);
                let records: Vec<[u8; DIFFERENCE_LENGTH]> = differing
                    .map(|(point, (&left, &right))| [point as u8, 0, left, right])
                    .collect();
                let found = compare::differences(&left, &right);
                let found: Vec<[u8; DIFFERENCE_LENGTH]> =
                    found.iter().map(compare::record).collect();
                assert_eq!(found, records);
            }
        }
    }
}

/// A listing in parts is the whole listing, and every part has the same total.
#[test]
fn parts_of_a_listing() {
    let mut generator = Generator::new(21);
    for n in 1..=MOST_VARIABLES {
        let tables = [(); 2].map(|_| generate::random_table(&mut generator, n, 40, 20));
        let [left, right] = tables.map(|(n, on, free)| write_stored(n, &on, &free));
        let room = DIFFERENCE_LENGTH * MOST_POINTS;
        let (whole, records) = call(&left, &right, 0, room);
        assert_eq!(whole, compared(records.len(), 1 << n, records.len()));
        let (mut first, mut joined) = (0, Vec::new());
        while first < 1 << n {
            let length = DIFFERENCE_LENGTH + generator.below(4 << n);
            let (numbers, part) = call(&left, &right, first, length);
            assert_eq!(numbers.total, records.len());
            assert!(numbers.next_point > first);
            first = numbers.next_point;
            joined.extend(part);
        }
        assert_eq!(joined, records);
    }
}
