//! The smallest affine space call compared with the reference. Follows document
//! 01, section "Points and spaces".

use crate::lent::{with_each_room, Lent};
use crate::lent_calls;
use crate::lists;
use crate::tables;
use crate::tally::Tally;
use glospruma::{MAX_POINTS, MAX_VARIABLES};
use library::Affine;
use reference::calls;
use reference::numbers::{AffineNumbers, ShortList};
use reference::refusal::SHORT_ROOM;

/// The numbers of the call in the reference's words.
pub fn numbers(found: &Affine) -> AffineNumbers {
    AffineNumbers {
        refusal: found.refusal,
        least: found.least,
        dimension: found.dimension,
        basis: ShortList {
            length: found.basis.len,
            entries: found.basis.vectors,
        },
        projection_count: found.count,
    }
}

/// Makes the call with room of each length and compares its numbers and the
/// memory.
fn compare(tally: &mut Tally, n: usize, on: &[u16]) {
    let mut answer = vec![0; MAX_POINTS];
    let accepted = calls::affine(n, on, &mut answer);
    answer.truncate(accepted.projection_count);
    let lent_on = Lent::holding(on);
    with_each_room(&answer, |room, fits| {
        let short = AffineNumbers {
            refusal: SHORT_ROOM,
            ..Default::default()
        };
        let expected = if fits { accepted } else { short };
        let found = library::affine(n, lent_on.part(), room);
        assert_eq!(
            numbers(&found),
            expected,
            "n {n}, on {on:?}, room {}",
            room.len()
        );
        lent_on.assert_as_lent();
        tally.add(found.refusal);
    });
}

#[test]
fn every_small_table() {
    let mut tally = Tally::new("affine, every small table");
    for (n, on, _) in tables::small_tables() {
        compare(&mut tally, n, &on);
    }
    for on in tables::functions_of_four() {
        compare(&mut tally, 4, &on);
    }
    tally.finish(&[0, 6, 7]);
}

#[test]
fn random_and_known_tables() {
    let mut tally = Tally::new("affine, random and known tables");
    for (n, on, _) in tables::random_tables(130).chain(tables::known_tables()) {
        compare(&mut tally, n, &on);
    }
    tally.finish(&[0, 6, 7]);
}

#[test]
fn faulty_lists() {
    let mut tally = Tally::new("affine, faulty lists");
    for (n, on) in lists::singles() {
        compare(&mut tally, n, &on);
    }
    for (n, on, _, _) in lists::ORDERED {
        compare(&mut tally, n, on);
    }
    tally.finish(&[0, 1, 2, 3, 6, 7]);
}

#[test]
fn order_of_refusals() {
    let refusal = |n, on: &[u16]| lent_calls::affine(n, on, &mut []).refusal;
    assert_eq!(refusal(0, &[]), 1);
    assert_eq!(refusal(MAX_VARIABLES + 1, &[]), 1);
    assert_eq!(refusal(2, &[4, 4]), 2);
    assert_eq!(refusal(2, &[1, 1, 4]), 2);
    assert_eq!(refusal(2, &[1, 1]), 3);
    assert_eq!(refusal(2, &[]), 6);
    assert_eq!(refusal(MAX_VARIABLES, &[]), 6);
    assert_eq!(refusal(2, &[0]), 7);
}
