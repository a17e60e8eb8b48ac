//! What the environment asks of the tests, read here alone.
//!
//! - `GLOSPRUMA_SHARE=k`, k up to some hundred: of the long lists of inputs about
//!   one in k, for runs under a tool that makes them slow; what tests ask of their
//!   counts goes down with it.
//! - `GLOSPRUMA_SEED` and `GLOSPRUMA_CASES`: another start and another length of
//!   the runs at random.

use reference::generate::Generator;
use std::env;
use std::sync::OnceLock;

/// A number from the environment, or else the given one.
fn number(name: &str, default: u64) -> u64 {
    match env::var(name) {
        Ok(text) => text
            .parse()
            .unwrap_or_else(|_| panic!("{name} is no number")),
        Err(_) => default,
    }
}

/// One input of how many is taken.
fn share() -> usize {
    static SHARE: OnceLock<usize> = OnceLock::new();
    *SHARE.get_or_init(|| number("GLOSPRUMA_SHARE", 1).max(1) as usize)
}

/// Whether the share is the whole.
pub fn is_whole() -> bool {
    share() == 1
}

/// So many inputs of each list are always taken.
const ALWAYS: usize = 4;

/// Whether the share has the input at a place of its list: the first ones, and of
/// the others one in k, in no step with the order in which lists are made.
fn has(place: usize) -> bool {
    place < ALWAYS || Generator::new(place as u64).below(share()) == 0
}

/// The share of a list of inputs.
pub fn some<I: IntoIterator>(inputs: I) -> impl Iterator<Item = I::Item> {
    let numbered = inputs.into_iter().enumerate();
    numbered.filter_map(|(place, input)| has(place).then_some(input))
}

/// How many of so many inputs the share has.
pub fn taken(inputs: usize) -> usize {
    (0..inputs).filter(|&place| has(place)).count()
}

/// How many of so many inputs of some kind the share must have at least: a quarter
/// of its part of them, since they may stand anywhere, and one; all if it is the
/// whole.
pub fn fewest(inputs: usize) -> usize {
    match share() {
        1 => inputs,
        share => (inputs / share / 4).max(1),
    }
}

/// Where the generator of a run at random starts, if the environment names no
/// other number.
pub fn seed(default: u64) -> u64 {
    number("GLOSPRUMA_SEED", default)
}

/// Cases of a run at random, if the environment names no other number.
pub fn cases(default: usize) -> u64 {
    number("GLOSPRUMA_CASES", taken(default) as u64)
}
