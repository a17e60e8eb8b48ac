//! The call that writes a form as it was read compared with the reference.
//! Follows document 01, sections "The written form" and "Refusal numbers", and
//! document 02, No. 3.

use crate::forms;
use crate::judges::{self, Refused};
use crate::lent::{with_each_room, Lent};
use crate::lent_calls;
use crate::stored;
use crate::tables;
use crate::tally::Tally;
use glospruma::MAX_VARIABLES;
use library::settings::taken;
use library::FormRewrite;
use reference::calls;
use reference::generate::{self, Generator};
use reference::numbers::RewriteNumbers;
use reference::refusal::SHORT_ROOM;

/// The numbers of the call in the reference's words.
pub fn numbers(found: &FormRewrite) -> RewriteNumbers {
    RewriteNumbers {
        refusal: found.refusal,
        place: found.place,
        length: found.length,
    }
}

/// Makes the call with room of each length and compares its numbers and the
/// memory; hands back whether the bytes are a form. What is written must be the
/// same bytes.
fn compare(tally: &mut Tally, bytes: &[u8]) -> bool {
    let mut written = vec![0; bytes.len()];
    let accepted = calls::form_rewrite(bytes, &mut written);
    let is_form = accepted.refusal == 0;
    let answer = if is_form { bytes } else { &[] };
    assert_eq!(written[..accepted.length], *answer);
    let lent = Lent::holding(bytes);
    with_each_room(answer, |room, fits| {
        let short = RewriteNumbers {
            refusal: SHORT_ROOM,
            ..Default::default()
        };
        let expected = if fits { accepted } else { short };
        let found = library::form_rewrite(lent.part(), room);
        assert_eq!(numbers(&found), expected, "room {}, {bytes:X?}", room.len());
        judges::assert_form(bytes, (found.refusal, found.place));
        lent.assert_as_lent();
        tally.add(found.refusal);
    });
    is_form
}

/// Makes the call with a room of so many bytes; the reference makes it on an equal
/// room, and then all numbers and all memory are compared. Hands back number and
/// place.
pub fn compare_in(tally: &mut Tally, bytes: &[u8], length: usize) -> Refused {
    let (lent, mut room) = (Lent::holding(bytes), Lent::room(length));
    let mut answer = room.part().to_vec();
    let expected = calls::form_rewrite(bytes, &mut answer);
    let found = library::form_rewrite(lent.part(), room.part_mut());
    assert_eq!(numbers(&found), expected, "room {length}, {bytes:X?}");
    judges::assert_form(bytes, (found.refusal, found.place));
    lent.assert_as_lent();
    room.assert_front(&answer[..expected.length]);
    tally.add(found.refusal);
    (found.refusal, found.place)
}

#[test]
fn random_forms() {
    let mut tally = Tally::new("form rewrite, random forms");
    for bytes in forms::random_forms(160) {
        assert!(compare(&mut tally, &bytes));
    }
    tally.finish(&[0, 7]);
}

#[test]
fn bounds() {
    let mut tally = Tally::new("form rewrite, bounds");
    let mut longest = 0;
    for bytes in forms::bounds() {
        if compare(&mut tally, &bytes) {
            longest = longest.max(bytes.len());
        }
    }
    assert_eq!(longest, 2 + 64 * (1 + MAX_VARIABLES * 4) + 3);
    tally.finish(&[0, 7, 22, 24, 27]);
}

#[test]
fn every_short_list_of_masks() {
    let mut tally = Tally::new("form rewrite, every short list of masks");
    let accepted = [1, 2, 3, 4].map(|n| {
        let forms = forms::mask_lists(n).map(|(bytes, _)| compare(&mut tally, &bytes));
        forms.filter(|&is_form| is_form).count()
    });
    assert_eq!(accepted, [2, 5, 16, 66]);
    tally.finish(&[0, 7, 23, 24]);
}

#[test]
fn broken_products() {
    let mut tally = Tally::new("form rewrite, broken products");
    for bytes in forms::broken_forms(161) {
        assert!(!compare(&mut tally, &bytes));
    }
    tally.finish(&[23, 24]);
}

#[test]
fn damaged_forms() {
    let mut tally = Tally::new("form rewrite, damaged forms");
    for bytes in forms::damaged_forms(162) {
        compare(&mut tally, &bytes);
    }
    tally.finish(&[0, 7, 20, 21, 22, 23, 24, 25, 26, 27]);
}

/// Only an empty table has the bytes of a form.
#[test]
fn stored_tables() {
    let mut tally = Tally::new("form rewrite, stored tables");
    for table in tables::random_tables(163) {
        let is_form = compare(&mut tally, &stored::bytes_of(&table));
        let is_empty = table.1.is_empty() && table.2.is_empty();
        assert_eq!(is_form, is_empty);
    }
    tally.finish(&[0, 7, 20]);
}

#[test]
fn random_bytes() {
    let mut tally = Tally::new("form rewrite, random bytes");
    let mut generator = Generator::new(164);
    for _ in 0..taken(20_000) {
        compare(&mut tally, &forms::random_records(&mut generator));
        compare(&mut tally, &forms::random_bytes(&mut generator));
        compare(&mut tally, &generate::random_records(&mut generator, 6));
    }
    tally.finish(&[0, 7, 20, 21, 22, 23, 24, 25, 26]);
}

#[test]
fn written_forms() {
    let mut tally = Tally::new("form rewrite, written forms");
    for (_, bytes) in forms::written_forms() {
        assert!(compare(&mut tally, &bytes));
    }
    tally.finish(&[0, 7]);
}

#[test]
fn faulty_forms() {
    for (refusal, place, bytes) in forms::FAULTY {
        let refused = FormRewrite {
            refusal,
            place,
            length: 0,
        };
        assert_eq!(
            lent_calls::form_rewrite(bytes, &mut []),
            refused,
            "{bytes:X?}"
        );
        let mut room = [9; 64];
        assert_eq!(
            lent_calls::form_rewrite(bytes, &mut room),
            refused,
            "{bytes:X?}"
        );
        assert_eq!(room, [9; 64]);
    }
}

#[test]
fn room_for_the_shortest_form() {
    let bytes = [0x4E, 12, 0x45, 0, 0];
    let mut room = [9; 6];
    let found = lent_calls::form_rewrite(&bytes, &mut room);
    assert_eq!((found.refusal, found.length), (0, 5));
    assert_eq!(room, [0x4E, 12, 0x45, 0, 0, 9]);
    let refusal = |length| lent_calls::form_rewrite(&bytes, &mut vec![0; length]).refusal;
    assert_eq!([0, 4, 5, 6].map(refusal), [7, 7, 0, 0]);
}
