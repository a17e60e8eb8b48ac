//! What the runs at random share: their numbers, the rooms that they lend, and
//! the comparison of a call with the reference. `damaged_bytes` damages what is
//! read as bytes, `damaged_lists` what is taken as lists. Seeds and numbers of
//! cases are fixed; for longer runs with other ones:
//!
//!     GLOSPRUMA_SEED=7 GLOSPRUMA_CASES=100000000 \
//!         cargo test --release at_random -- --nocapture
//!
//! Follows document 01, section "Refusal numbers".

use crate::lent::{Entry, Lent};
use crate::tally::Tally;
use library::settings;
use reference::generate::Generator;
use std::fmt::Debug;

/// Where the generator starts, if the environment names no other number.
const SEED: u64 = 2026;

/// The seed of this run.
pub fn seed() -> u64 {
    settings::seed(SEED)
}

/// The comparisons of a run.
pub struct Run {
    pub generator: Generator,
    pub tally: Tally,
}

impl Run {
    /// No comparison yet, under a title.
    pub fn new(title: &'static str) -> Run {
        Run {
            generator: Generator::new(seed()),
            tally: Tally::new(title),
        }
    }

    /// A length of room for an answer: mostly enough for it, exact or not.
    pub fn room_length(&mut self, answer: usize) -> usize {
        match self.generator.below(8) {
            0 => 0,
            1 => answer.saturating_sub(1),
            2 => self.generator.below(answer + 1),
            3..=5 => answer,
            _ => answer + self.generator.below(40),
        }
    }

    /// Makes a call in a room of some length; its numbers must be the accepted
    /// ones if the answer fits, and those of refusal 7 if not.
    pub fn compare<E: Entry, N: PartialEq + Debug>(
        &mut self,
        input: &dyn Debug,
        answer: &[E],
        (accepted, short): (N, N),
        call: impl FnOnce(&mut [E]) -> (u8, N),
    ) {
        let length = self.room_length(answer.len());
        let fits = answer.len() <= length;
        let mut room = Lent::room(length);
        let (refusal, found) = call(room.part_mut());
        let expected = if fits { accepted } else { short };
        assert_eq!(found, expected, "room {length}, {input:?}");
        room.assert_front(if fits { answer } else { &[] });
        self.tally.add(refusal);
    }
}
