//! Measures two ways to do the same work, in turns, and prints both times. The
//! work is that of document 01, section "What the library holds".

use std::hint::black_box;
use std::slice;
use std::time::{Duration, Instant};

/// Fewest turns of each side, if the time for them suffices; the shortest time of
/// a side counts.
const FEWEST_TURNS: usize = 300;

/// After this time fewer turns are enough.
const MOST_TIME: Duration = Duration::from_secs(10);

/// Both sides go on for at least this time.
const LEAST_TIME: Duration = Duration::from_secs(1);

/// Prints the head of the columns.
pub fn print_head() {
    println!(
        "{:<42} {:>12} {:>12} {:>7}",
        "call and table", "library us", "plain us", "ratio"
    );
}

/// Time of one turn: the work done once on each input.
fn time<I, T>(inputs: &[I], work: &mut impl FnMut(&I) -> T) -> Duration {
    let start = Instant::now();
    for input in inputs {
        black_box(work(input));
    }
    start.elapsed()
}

/// Runs both sides in turns, each first in half of them, and prints the shortest
/// time of each, in microseconds for one input, and the ratio.
pub fn compare<I, T>(
    title: &str,
    inputs: &[I],
    mut library: impl FnMut(&I) -> T,
    mut plain: impl FnMut(&I) -> T,
) {
    let (mut library_time, mut plain_time) = (Duration::MAX, Duration::MAX);
    let (mut turn, start) = (0, Instant::now());
    let wants_turns = |turn, time| turn < FEWEST_TURNS && time < MOST_TIME;
    while wants_turns(turn, start.elapsed()) || start.elapsed() < LEAST_TIME {
        let library_first = turn % 2 == 0;
        if library_first {
            library_time = library_time.min(time(inputs, &mut library));
        }
        plain_time = plain_time.min(time(inputs, &mut plain));
        if !library_first {
            library_time = library_time.min(time(inputs, &mut library));
        }
        turn += 1;
    }
    let micros = |time: Duration| time.as_secs_f64() * 1e6 / inputs.len() as f64;
    println!(
        "{title:<42} {:>12.2} {:>12.2} {:>7.2}",
        micros(library_time),
        micros(plain_time),
        library_time.as_secs_f64() / plain_time.as_secs_f64()
    );
}

/// Turns on each input when the slowest is sought.
const SEARCH_TURNS: usize = 9;

/// The input on which the work takes longest, by the shortest of some turns.
pub fn slowest<I, T>(inputs: &[I], mut work: impl FnMut(&I) -> T) -> &I {
    let mut shortest = |input| {
        let turns = (0..SEARCH_TURNS).map(|_| time(slice::from_ref(input), &mut work));
        turns.min()
    };
    let slowest = inputs.iter().max_by_key(|&input| shortest(input));
    slowest.expect("there are inputs")
}
