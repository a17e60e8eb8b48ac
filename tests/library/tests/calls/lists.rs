//! Pairs of an on list and a free list, most of them faulty, often in several
//! ways at once, so that the order of the refusals matters. Follows document 01,
//! section "Refusal numbers".

use glospruma::{MAX_POINTS, MAX_VARIABLES};
use library::settings::some;

/// The last point of the widest table.
const LAST: u16 = (MAX_POINTS - 1) as u16;

/// The first point that no table has.
const BEYOND: u16 = MAX_POINTS as u16;

/// Points of a list that is longer than any table.
const LONGER: usize = MAX_POINTS + MAX_POINTS / 4;

/// Numbers of variables to try: all that are accepted, and refused ones, among
/// them those that a narrower number would take for an accepted one.
pub fn variable_counts() -> Vec<usize> {
    let accepted = 1..=MAX_VARIABLES;
    let refused = [
        0,
        MAX_VARIABLES + 1,
        MAX_VARIABLES + 2,
        16,
        63,
        64,
        64 + MAX_VARIABLES,
        128,
        255,
        256,
        256 + MAX_VARIABLES,
        65_536 + MAX_VARIABLES,
        (1 << 32) + MAX_VARIABLES,
        (1 << 63) + MAX_VARIABLES,
        usize::MAX,
    ];
    accepted.chain(refused).collect()
}

/// Lists for n variables: good ones; points of 2^n and more; equal and falling
/// points; lists longer than any table. For a refused n they are those of
/// another.
fn lists_of(n: usize) -> Vec<Vec<u16>> {
    let width = n.clamp(1, MAX_VARIABLES);
    let size = 1u16 << width;
    let (last, middle) = (size - 1, size / 2);
    vec![
        vec![],
        vec![0],
        vec![middle],
        vec![last],
        vec![0, last],
        (0..size).collect(),
        (0..size).step_by(2).collect(),
        vec![size],
        vec![0, size],
        vec![last, size + 1],
        vec![BEYOND],
        vec![0, 65_535],
        vec![65_535, 0],
        vec![size, size],
        vec![0, 0, size],
        vec![0, 0],
        vec![last, last],
        vec![0, last, last],
        vec![last, 0],
        vec![0, last, middle],
        (0..size).chain([last]).collect(),
        (0..LONGER as u16).collect(),
        vec![0; LONGER],
        (0..size).cycle().take(2 * MAX_POINTS).collect(),
    ]
}

/// Every pair of the lists above, for every number of variables above.
pub fn pairs() -> impl Iterator<Item = (usize, Vec<u16>, Vec<u16>)> {
    let all = variable_counts().into_iter().flat_map(|n| {
        let lists = lists_of(n);
        let others = lists.clone();
        lists.into_iter().flat_map(move |on| {
            let frees = others.clone().into_iter();
            frees.map(move |free| (n, on.clone(), free))
        })
    });
    some(all)
}

/// Every list above alone, for every number of variables above.
pub fn singles() -> impl Iterator<Item = (usize, Vec<u16>)> {
    let counts = variable_counts().into_iter();
    some(counts.flat_map(|n| lists_of(n).into_iter().map(move |on| (n, on))))
}

/// n, on points, free points, and the refusal number by the order 1, 2, 3, 4.
pub type Case = (usize, &'static [u16], &'static [u16], u8);

/// Cases with several faults at once, and the bounds of each number.
pub const ORDERED: [Case; 24] = [
    (0, &[], &[], 1),
    (0, &[1, 1], &[1], 1),
    (MAX_VARIABLES + 1, &[65_535, 0], &[0], 1),
    (usize::MAX, &[0], &[0], 1),
    (MAX_VARIABLES, &[BEYOND], &[], 2),
    (MAX_VARIABLES, &[], &[BEYOND], 2),
    (MAX_VARIABLES, &[], &[65_535], 2),
    (1, &[2], &[], 2),
    (2, &[4, 4], &[], 2),
    (2, &[1, 1], &[4], 2),
    (2, &[1, 1, 4], &[], 2),
    (2, &[4], &[1, 1], 2),
    (2, &[1, 4], &[1, 4], 2),
    (2, &[1, 1], &[], 3),
    (2, &[], &[2, 1], 3),
    (2, &[0, 1, 3, 2], &[], 3),
    (2, &[1, 1], &[1], 3),
    (2, &[1], &[1, 1], 3),
    (2, &[1, 3], &[3, 1], 3),
    (2, &[1], &[1], 4),
    (2, &[0, 3], &[1, 3], 4),
    (2, &[0, 1], &[0, 2], 4),
    (MAX_VARIABLES, &[0, LAST], &[LAST], 4),
    (MAX_VARIABLES, &[0], &[0], 4),
];
