//! The call that reads a form into its points compared with the reference.
//! Follows document 01, sections "The written form" and "Refusal numbers", and
//! document 02, No. 3.

use crate::forms;
use crate::judges::{self, Refused};
use crate::lent::{with_each_room, Lent};
use crate::lent_calls;
use crate::stored;
use crate::tables;
use crate::tally::Tally;
use glospruma::{MAX_POINTS, MAX_VARIABLES};
use library::settings::taken;
use library::FormPoints;
use reference::calls;
use reference::generate::{self, Generator};
use reference::numbers::FormPointsNumbers;
use reference::refusal::SHORT_ROOM;

/// The numbers of the call in the reference's words.
pub fn numbers(found: &FormPoints) -> FormPointsNumbers {
    FormPointsNumbers {
        refusal: found.refusal,
        place: found.place,
        variables: found.variables,
        point_count: found.count,
    }
}

/// Makes the call with room of each length and compares its numbers and the
/// memory; hands back the expected points, or none for a refused form.
fn compare(tally: &mut Tally, bytes: &[u8]) -> Option<Vec<u16>> {
    let mut answer = vec![0; MAX_POINTS];
    let accepted = calls::form_points(bytes, &mut answer);
    answer.truncate(accepted.point_count);
    let lent = Lent::holding(bytes);
    with_each_room(&answer, |room, fits| {
        let short = FormPointsNumbers {
            refusal: SHORT_ROOM,
            ..Default::default()
        };
        let expected = if fits { accepted } else { short };
        let found = library::form_points(lent.part(), room);
        assert_eq!(numbers(&found), expected, "room {}, {bytes:X?}", room.len());
        judges::assert_form(bytes, (found.refusal, found.place));
        lent.assert_as_lent();
        tally.add(found.refusal);
    });
    (accepted.refusal == 0).then_some(answer)
}

/// Makes the call with a room of so many points; the reference makes it on an equal
/// room, and then all numbers and all memory are compared. Hands back number and
/// place.
pub fn compare_in(tally: &mut Tally, bytes: &[u8], length: usize) -> Refused {
    let (lent, mut room) = (Lent::holding(bytes), Lent::room(length));
    let mut answer = room.part().to_vec();
    let expected = calls::form_points(bytes, &mut answer);
    let found = library::form_points(lent.part(), room.part_mut());
    assert_eq!(numbers(&found), expected, "room {length}, {bytes:X?}");
    judges::assert_form(bytes, (found.refusal, found.place));
    lent.assert_as_lent();
    room.assert_front(&answer[..expected.point_count]);
    tally.add(found.refusal);
    (found.refusal, found.place)
}

#[test]
fn random_forms() {
    let mut tally = Tally::new("form points, random forms");
    for bytes in forms::random_forms(150) {
        assert!(compare(&mut tally, &bytes).is_some());
    }
    tally.finish(&[0, 7]);
}

#[test]
fn bounds() {
    let mut tally = Tally::new("form points, bounds");
    for bytes in forms::bounds() {
        compare(&mut tally, &bytes);
    }
    tally.finish(&[0, 7, 22, 24, 27]);
}

/// A canonical product of f factors has 2^(n-f) points. Each space of masks has
/// one canonical list of them, so that there are 2, 5, 16 and 67 for n from 1 to
/// 4; the last number is one less here, without the list of four masks.
#[test]
fn every_short_list_of_masks() {
    let mut tally = Tally::new("form points, every short list of masks");
    let mut accepted = [0; 4];
    for n in 1..=4 {
        for (bytes, factors) in forms::mask_lists(n) {
            if let Some(points) = compare(&mut tally, &bytes) {
                assert_eq!(points.len(), 1 << (n - factors));
                accepted[n - 1] += 1;
            }
        }
    }
    assert_eq!(accepted, [2, 5, 16, 66]);
    tally.finish(&[0, 7, 23, 24]);
}

#[test]
fn broken_products() {
    let mut tally = Tally::new("form points, broken products");
    for bytes in forms::broken_forms(151) {
        assert_eq!(compare(&mut tally, &bytes), None);
    }
    tally.finish(&[23, 24]);
}

#[test]
fn damaged_forms() {
    let mut tally = Tally::new("form points, damaged forms");
    for bytes in forms::damaged_forms(152) {
        compare(&mut tally, &bytes);
    }
    tally.finish(&[0, 7, 20, 21, 22, 23, 24, 25, 26, 27]);
}

/// Only an empty table has the bytes of a form, which is the form without
/// products.
#[test]
fn stored_tables() {
    let mut tally = Tally::new("form points, stored tables");
    for table in tables::random_tables(153) {
        let points = compare(&mut tally, &stored::bytes_of(&table));
        let is_empty = table.1.is_empty() && table.2.is_empty();
        assert_eq!(points, is_empty.then(Vec::new));
    }
    tally.finish(&[0, 20]);
}

#[test]
fn random_bytes() {
    let mut tally = Tally::new("form points, random bytes");
    let mut generator = Generator::new(154);
    for _ in 0..taken(20_000) {
        compare(&mut tally, &forms::random_records(&mut generator));
        compare(&mut tally, &forms::random_bytes(&mut generator));
        compare(&mut tally, &generate::random_records(&mut generator, 6));
    }
    tally.finish(&[0, 7, 20, 21, 22, 23, 24, 25, 26]);
}

/// The form written for a table has the points of its completion.
#[test]
fn written_forms() {
    let mut tally = Tally::new("form points, written forms");
    let mut room = vec![0; MAX_POINTS];
    for ((n, on, free), bytes) in forms::written_forms() {
        let points = compare(&mut tally, &bytes);
        let completion = lent_calls::complete(n, &on, &free, &mut room);
        assert_eq!(points.as_deref(), Some(&room[..completion.count]));
    }
    tally.finish(&[0, 7]);
}

#[test]
fn faulty_forms() {
    for (refusal, place, bytes) in forms::FAULTY {
        let refused = FormPoints {
            refusal,
            place,
            ..Default::default()
        };
        assert_eq!(
            lent_calls::form_points(bytes, &mut []),
            refused,
            "{bytes:X?}"
        );
        let mut room = [9; MAX_POINTS];
        assert_eq!(
            lent_calls::form_points(bytes, &mut room),
            refused,
            "{bytes:X?}"
        );
        assert_eq!(room, [9; MAX_POINTS]);
    }
}

/// The points of a form that is read.
fn points(bytes: &[u8]) -> Vec<u16> {
    let mut room = [0; MAX_POINTS];
    let found = lent_calls::form_points(bytes, &mut room);
    assert_eq!((found.refusal, found.variables), (0, bytes[1].into()));
    room[..found.count].to_vec()
}

#[test]
fn points_of_known_forms() {
    let eight_then_six = [0x4E, 4, 0x50, 0x58, 1, 8, 0, 0x58, 0, 6, 0, 0x45, 1, 0];
    assert_eq!(points(&eight_then_six), [8, 9, 14, 15]);
    let n = MAX_VARIABLES as u8;
    assert_eq!(points(&[0x4E, n, 0x45, 0, 0]), []);
    let everywhere: Vec<u16> = (0..MAX_POINTS as u16).collect();
    assert_eq!(points(&[0x4E, n, 0x50, 0x45, 1, 0]), everywhere);
    let odd = [0x4E, 12, 0x50, 0x58, 1, 255, 15, 0x45, 1, 0];
    let is_odd = |point: &u16| point.count_ones() % 2 == 1;
    assert_eq!(points(&odd), (0..4096).filter(is_odd).collect::<Vec<u16>>());
}

/// One product of as many factors as variables is true at the last point alone; as
/// many products of one factor are true everywhere else.
#[test]
fn last_point_and_all_others() {
    let n = MAX_VARIABLES as u8;
    let (mut last, mut others) = (vec![0x4E, n, 0x50], vec![0x4E, n]);
    for place in (0..n).rev() {
        let [low, high] = (1u16 << place).to_le_bytes();
        last.extend([0x58, 1, low, high]);
        others.extend([0x50, 0x58, 0, low, high]);
    }
    last.extend([0x45, 1, 0]);
    others.extend([0x45, n, 0]);
    let end = (MAX_POINTS - 1) as u16;
    assert_eq!(points(&last), [end]);
    assert_eq!(points(&others), (0..end).collect::<Vec<u16>>());
    let refusal = |length| lent_calls::form_points(&others, &mut vec![0; length]).refusal;
    assert_eq!([MAX_POINTS - 2, MAX_POINTS - 1].map(refusal), [7, 0]);
}
