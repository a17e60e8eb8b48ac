//! The completion call compared with the reference. Follows document 01, section
//! "Points and spaces", and document 02, No. 4.

use crate::lent::{with_each_room, Lent};
use crate::lent_calls;
use crate::lists;
use crate::tables;
use crate::tally::{assert_counts, Tally};
use glospruma::{MAX_POINTS, MAX_VARIABLES};
use library::settings::some;
use library::Completion;
use reference::calls;
use reference::completion::MOST_CLOSURE_VARIABLES;
use reference::numbers::CompletionNumbers;
use reference::refusal::SHORT_ROOM;
use std::cmp::Ordering;

/// The numbers of the call in the reference's words.
pub fn numbers(found: &Completion) -> CompletionNumbers {
    CompletionNumbers {
        refusal: found.refusal,
        point_count: found.count,
        degree: found.degree,
        k0: found.k0,
        k1: found.k1,
    }
}

/// Makes the call with room of each length and compares its numbers and the
/// memory; hands back the expected numbers.
fn compare(tally: &mut Tally, n: usize, on: &[u16], free: &[u16]) -> CompletionNumbers {
    let mut answer = vec![0; MAX_POINTS];
    let accepted = calls::complete(n, on, free, &mut answer);
    answer.truncate(accepted.point_count);
    let (lent_on, lent_free) = (Lent::holding(on), Lent::holding(free));
    with_each_room(&answer, |room, fits| {
        let short = CompletionNumbers {
            refusal: SHORT_ROOM,
            ..Default::default()
        };
        let expected = if fits { accepted } else { short };
        let found = library::complete(n, lent_on.part(), lent_free.part(), room);
        assert_eq!(
            numbers(&found),
            expected,
            "n {n}, on {on:?}, free {free:?}, room {}",
            room.len()
        );
        lent_on.assert_as_lent();
        lent_free.assert_as_lent();
        tally.add(found.refusal);
    });
    accepted
}

#[test]
fn every_small_table() {
    let mut tally = Tally::new("complete, every small table");
    let mut tables = 0;
    for (n, on, free) in tables::small_tables() {
        compare(&mut tally, n, &on, &free);
        tables += 1;
    }
    assert_eq!(tables, tables::small_count());
    tally.finish(&[0, 7]);
}

/// How the tables with free points are completed: up to eight variables with a
/// degree above k0 and k1 or with the larger of the two, from nine variables by all
/// off, by a tie or by all on.
#[derive(Default)]
struct Ways([usize; 5]);

impl Ways {
    fn add(&mut self, n: usize, expected: &CompletionNumbers) {
        let CompletionNumbers { degree, k0, k1, .. } = *expected;
        let way = match k0.cmp(&k1) {
            _ if n <= MOST_CLOSURE_VARIABLES => usize::from(degree == k0.max(k1)),
            Ordering::Greater => 2,
            Ordering::Equal => 3,
            Ordering::Less => 4,
        };
        self.0[way] += 1;
    }

    /// Prints the counts; each way must have come up.
    fn finish(self) {
        let [above, larger, off, tie, all_on] = self.0;
        println!("with free points, up to eight variables: {above} above both, {larger} not");
        println!("from nine: {off} all off, {tie} ties, {all_on} all on");
        assert_counts("complete, by degrees", &self.0, 50);
    }
}

/// Both rules come up, and each of their cases.
#[test]
fn random_and_known_tables() {
    let mut tally = Tally::new("complete, random and known tables");
    let mut ways = Ways::default();
    for (n, on, free) in tables::random_tables(110).chain(tables::known_tables()) {
        let expected = compare(&mut tally, n, &on, &free);
        if !free.is_empty() {
            ways.add(n, &expected);
        }
    }
    ways.finish();
    tally.finish(&[0, 7]);
}

#[test]
fn many_free_points() {
    let mut tally = Tally::new("complete, many free points");
    for (n, on, free) in tables::closure_tables(111).chain(tables::free_tables(112)) {
        compare(&mut tally, n, &on, &free);
    }
    tally.finish(&[0, 7]);
}

/// No on point and free points of every number: nothing is on.
#[test]
fn no_on_point() {
    let mut tally = Tally::new("complete, no on point");
    for n in some(1..=MAX_VARIABLES) {
        let all: Vec<u16> = (0..1 << n).collect();
        for free in [&all[..], &all[1..], &all[..1], &all[all.len() / 2..], &[]] {
            let expected = compare(&mut tally, n, &[], free);
            assert_eq!((expected.point_count, expected.degree), (0, n));
        }
    }
    tally.finish(&[0]);
}

#[test]
fn faulty_lists() {
    let mut tally = Tally::new("complete, faulty lists");
    for (n, on, free) in lists::pairs() {
        compare(&mut tally, n, &on, &free);
    }
    for (n, on, free, refusal) in lists::ORDERED {
        compare(&mut tally, n, on, free);
        let found = lent_calls::complete(n, on, free, &mut []);
        assert_eq!(found.refusal, refusal, "n {n}, on {on:?}, free {free:?}");
    }
    tally.finish(&[0, 1, 2, 3, 4, 7]);
}
