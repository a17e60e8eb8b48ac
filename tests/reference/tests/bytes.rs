//! Stored tables as bytes: layout, faults and their places, damaged inputs.
//! Follows document 01, sections "The written form" and "Refusal numbers", and
//! document 02, No. 3.

use reference::generate::{self, Generator};
use reference::refusal::{Refused, BYTES_AFTER, BYTES_MISSING, WRONG_COUNT, WRONG_KIND};
use reference::table::{self, read_stored, walk_stored, write_records, write_stored};
use reference::table::{LONGEST_STORED, MOST_POINTS, MOST_VARIABLES};

/// Whether bytes are laid out as a table, by the shape as a whole: no walk.
fn is_laid_out(bytes: &[u8]) -> bool {
    let length = bytes.len();
    if !(5..=LONGEST_STORED).contains(&length) || !(length - 5).is_multiple_of(3) {
        return false;
    }
    let records = (length - 5) / 3;
    let mut kinds = (0..records).map(|record| bytes[2 + 3 * record]);
    let count = usize::from(bytes[length - 2]) + 256 * usize::from(bytes[length - 1]);
    bytes[0] == 0x4E
        && kinds.all(|kind| kind == 0x4F || kind == 0x44)
        && bytes[length - 3] == 0x45
        && count == records
}

/// The refusal of bytes that are laid out as a table, by their points, each number
/// over all records.
fn expected_refusal(bytes: &[u8]) -> Option<Refused> {
    let bodies = bytes[2..bytes.len() - 3].chunks(3);
    let points: Vec<usize> = bodies
        .map(|record| usize::from(record[1]) + 256 * usize::from(record[2]))
        .collect();
    if bytes[1] == 0 || usize::from(bytes[1]) > MOST_VARIABLES {
        Some(1.into())
    } else if points.iter().any(|&point| point >= 1 << bytes[1]) {
        Some(2.into())
    } else if points.windows(2).any(|pair| pair[0] >= pair[1]) {
        Some(3.into())
    } else {
        None
    }
}

/// Compares the reader with the shape, and the walk's place with its meaning.
fn check_bytes(bytes: &[u8]) {
    let read = read_stored(bytes);
    match walk_stored(bytes) {
        Ok(stored) => {
            assert!(is_laid_out(bytes));
            assert_eq!(write_records(stored.variables, &stored.records), bytes);
            assert_eq!(read.as_ref().err().copied(), expected_refusal(bytes));
        }
        Err(refused) => {
            assert_eq!(read, Err(refused));
            check_place(bytes, refused);
        }
    }
    if let Ok((n, on, free)) = read {
        assert_eq!(write_stored(n, &on, &free), bytes);
    }
}

/// A fault's place: bytes are missing at the length; any other fault stands at a
/// byte, and with that byte and all behind it cut off the walk misses bytes there.
fn check_place(bytes: &[u8], Refused { refusal, place }: Refused) {
    assert!(!is_laid_out(bytes));
    assert!(place <= bytes.len());
    assert_eq!(refusal == BYTES_MISSING, place == bytes.len());
    match refusal {
        BYTES_MISSING | WRONG_KIND | WRONG_COUNT => {
            assert_eq!(walk_stored(&bytes[..place]), Err(missing(place)));
        }
        BYTES_AFTER => {
            let before = walk_stored(&bytes[..place]);
            assert!(before.is_ok() || place == LONGEST_STORED);
        }
        _ => panic!("not a fault of a table: {refusal}"),
    }
}

/// Bytes missing at a place.
fn missing(place: usize) -> Refused {
    Refused::at(BYTES_MISSING, place)
}

/// Checks bytes and every damage to them.
fn check_damages(bytes: &[u8]) {
    check_bytes(bytes);
    generate::every_changed_byte(bytes).for_each(|damaged| check_bytes(&damaged));
    generate::cuts(bytes).for_each(|damaged| check_bytes(&damaged));
    generate::extensions(bytes).for_each(|damaged| check_bytes(&damaged));
    for damaged in generate::wrong_counts(bytes) {
        let wrong_count = Refused::at(WRONG_COUNT, bytes.len() - 2);
        assert_eq!(read_stored(&damaged), Err(wrong_count));
        check_bytes(&damaged);
    }
}

#[test]
fn damaged_tables() {
    let mut generator = Generator::new(6);
    for n in 1..=MOST_VARIABLES {
        let (_, on, free) = generate::random_table(&mut generator, n.min(4), 40, 30);
        check_damages(&write_stored(n, &on, &free));
    }
    let (_, on, free) = generate::random_table(&mut generator, 9, 60, 20);
    let bytes = write_stored(9, &on, &free);
    generate::changed_bytes(&bytes, 1).for_each(|damaged| check_bytes(&damaged));
    generate::changed_bytes(&bytes, 255).for_each(|damaged| check_bytes(&damaged));
    generate::cuts(&bytes).for_each(|damaged| check_bytes(&damaged));
}

#[test]
fn random_records_and_random_bytes() {
    let mut generator = Generator::new(7);
    for _ in 0..50_000 {
        check_bytes(&generate::random_records(&mut generator, 6));
        let length = generator.below(12);
        let kinds = [0x4E, 0x45, 0x4F, 0x44, 0, 1, 2, 3];
        let bytes: Vec<u8> = (0..length).map(|_| kinds[generator.below(8)]).collect();
        check_bytes(&bytes);
    }
}

#[test]
fn layout_comes_before_points() {
    let refused = |bytes: &[u8]| read_stored(bytes).expect_err("a fault");
    assert_eq!(refused(&[]), missing(0));
    assert_eq!(refused(&[0x4E, 0, 0x45, 0, 0]), 1.into());
    let (most, end) = (MOST_VARIABLES as u8, MOST_POINTS as u16);
    assert_eq!(refused(&write_records(most + 1, &[])), 1.into());
    let n_and_count = [0x4E, 0, 0x45, 1, 0];
    assert_eq!(refused(&n_and_count), Refused::at(WRONG_COUNT, 3));
    let on = |point| (0x4F, point);
    assert_eq!(refused(&write_records(2, &[on(4), on(4)])), 2.into());
    let late = write_records(2, &[on(1), on(1), on(4)]);
    assert_eq!(refused(&late), 2.into());
    assert_eq!(refused(&write_records(2, &[on(1), (0x44, 1)])), 3.into());
    assert_eq!(
        read_stored(&write_records(most, &[on(end - 1)])),
        Ok((MOST_VARIABLES, vec![end - 1], vec![]))
    );
    assert_eq!(refused(&write_records(most, &[on(end)])), 2.into());
    let count_257 = [0x4E, 2, 0x4F, 1, 0, 0x45, 1, 1];
    assert_eq!(refused(&count_257), Refused::at(WRONG_COUNT, 6));
    let many: Vec<(u8, u16)> = (0..end).map(on).collect();
    assert_eq!(refused(&write_records(3, &many)), 2.into());
}

#[test]
fn places_of_faults() {
    let fault = |bytes: &[u8]| walk_stored(bytes).expect_err("a fault");
    assert_eq!(fault(&[]), missing(0));
    assert_eq!(fault(&[0x4E]), missing(1));
    assert_eq!(fault(&[0x4F, 1]), Refused::at(WRONG_KIND, 0));
    assert_eq!(fault(&[0x4E, 4, 0x50]), Refused::at(WRONG_KIND, 2));
    assert_eq!(fault(&[0x4E, 4, 0x4F, 1]), missing(4));
    let count_and_more = [0x4E, 4, 0x45, 1, 0, 0];
    assert_eq!(fault(&count_and_more), Refused::at(WRONG_COUNT, 3));
    let second_end = [0x4E, 4, 0x45, 0, 0, 0x45];
    assert_eq!(fault(&second_end), Refused::at(BYTES_AFTER, 5));
}

#[test]
fn the_longest_table() {
    let all: Vec<u16> = (0..MOST_POINTS as u16).collect();
    let mut bytes = write_stored(MOST_VARIABLES, &all, &[]);
    let (length, end) = (LONGEST_STORED, LONGEST_STORED - 3);
    let too_long = Err(Refused::at(BYTES_AFTER, length));
    assert_eq!(bytes.len(), length);
    assert_eq!(
        read_stored(&bytes),
        Ok((MOST_VARIABLES, all.clone(), vec![]))
    );
    for extra in 0..=255 {
        bytes.push(extra);
        assert_eq!(walk_stored(&bytes), too_long);
        bytes.pop();
    }
    let points = 0..=MOST_POINTS as u16;
    let records: Vec<(u8, u16)> = points.map(|point| (0x4F, point)).collect();
    let mut more = write_records(MOST_VARIABLES as u8, &records);
    assert_eq!(walk_stored(&more), too_long);
    more.truncate(length);
    assert_eq!(walk_stored(&more), Err(missing(length)));
    more.extend([0; 9]);
    assert_eq!(walk_stored(&more), too_long);
    more[end] = 0;
    assert_eq!(walk_stored(&more), Err(Refused::at(WRONG_KIND, end)));
    bytes.push(0);
    bytes[end + 1] = 1;
    assert_eq!(walk_stored(&bytes), Err(Refused::at(WRONG_COUNT, end + 1)));
}

#[test]
fn lists_are_tested_for_each_number_in_turn() {
    assert_eq!(table::check(0, &[9], &[]), Err(1));
    assert_eq!(table::check(MOST_VARIABLES + 1, &[], &[]), Err(1));
    assert_eq!(table::check(usize::MAX, &[], &[]), Err(1));
    assert_eq!(table::check(2, &[1, 1], &[4]), Err(2));
    assert_eq!(table::check(2, &[1], &[2, 1]), Err(3));
    assert_eq!(table::check(2, &[1], &[1, 1]), Err(3));
    assert_eq!(table::check(2, &[0, 3], &[1, 3]), Err(4));
    assert_eq!(table::check(2, &[0, 3], &[1, 2]), Ok(()));
}
