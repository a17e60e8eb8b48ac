//! The analysis call compared with the reference. Follows document 01, section
//! "Points and spaces", and document 02, No. 4.

use crate::lent::{with_each_room, Lent};
use crate::lent_calls;
use crate::lists;
use crate::tables;
use crate::tally::Tally;
use glospruma::MAX_POINTS;
use library::Analysis;
use reference::calls;
use reference::numbers::{AnalysisNumbers, ShortList};
use reference::refusal::SHORT_ROOM;

/// A short list in the reference's words.
fn short_list(list: &library::ShortList) -> ShortList {
    ShortList {
        length: list.len,
        entries: list.values,
    }
}

/// The numbers of the call in the reference's words.
pub fn numbers(found: &Analysis) -> AnalysisNumbers {
    AnalysisNumbers {
        refusal: found.refusal,
        degree: found.degree,
        basis: ShortList {
            length: found.basis.len,
            entries: found.basis.vectors,
        },
        canonical: short_list(&found.canonical),
        equations: short_list(&found.equations),
        restriction_count: found.count,
    }
}

/// Makes the call with room of each length and compares its numbers and the
/// memory.
fn compare(tally: &mut Tally, n: usize, on: &[u16], free: &[u16]) {
    let mut answer = vec![0; MAX_POINTS];
    let accepted = calls::analyse(n, on, free, &mut answer);
    answer.truncate(accepted.restriction_count);
    let (lent_on, lent_free) = (Lent::holding(on), Lent::holding(free));
    with_each_room(&answer, |room, fits| {
        let short = AnalysisNumbers {
            refusal: SHORT_ROOM,
            ..Default::default()
        };
        let expected = if fits { accepted } else { short };
        let found = library::analyse(n, lent_on.part(), lent_free.part(), room);
        assert_eq!(
            numbers(&found),
            expected,
            "n {n}, on {on:?}, free {free:?}, room {}",
            room.len()
        );
        lent_on.assert_as_lent();
        lent_free.assert_as_lent();
        tally.add(found.refusal);
    });
}

#[test]
fn every_small_table() {
    let mut tally = Tally::new("analyse, every small table");
    for (n, on, free) in tables::small_tables() {
        compare(&mut tally, n, &on, &free);
    }
    for on in tables::functions_of_four() {
        compare(&mut tally, 4, &on, &[]);
    }
    tally.finish(&[0, 7]);
}

#[test]
fn random_and_known_tables() {
    let mut tally = Tally::new("analyse, random and known tables");
    for (n, on, free) in tables::random_tables(120).chain(tables::known_tables()) {
        compare(&mut tally, n, &on, &free);
    }
    tally.finish(&[0, 7]);
}

#[test]
fn many_free_points() {
    let mut tally = Tally::new("analyse, many free points");
    for (n, on, free) in tables::closure_tables(121).chain(tables::free_tables(122)) {
        compare(&mut tally, n, &on, &free);
    }
    tally.finish(&[0, 7]);
}

#[test]
fn faulty_lists() {
    let mut tally = Tally::new("analyse, faulty lists");
    for (n, on, free) in lists::pairs() {
        compare(&mut tally, n, &on, &free);
    }
    for (n, on, free, refusal) in lists::ORDERED {
        compare(&mut tally, n, on, free);
        let found = lent_calls::analyse(n, on, free, &mut []);
        assert_eq!(found.refusal, refusal, "n {n}, on {on:?}, free {free:?}");
    }
    tally.finish(&[0, 1, 2, 3, 4, 7]);
}
