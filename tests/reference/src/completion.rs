//! Completion: free points made on or off. Up to eight variables by the largest
//! space inside the closure set, from nine by the larger of two degrees. Follows
//! document 02, No. 4, source 003 (Definitions 3 and 4, Algorithm 3), and document
//! 01, section "Points and spaces".
//!
//! A largest space is found in three ways, which share no search: among all sets
//! of vectors that are spaces (up to four variables), by growing all spaces inside
//! the set dimension by dimension, and by the search that source 003 describes
//! before Example 5, from the largest possible dimension down.

use crate::space;
use std::collections::BTreeSet;
use std::sync::OnceLock;

/// Most variables of a table that is completed by its closure set.
pub const MOST_CLOSURE_VARIABLES: usize = 8;

/// Most variables for which all spaces are found among all sets of vectors.
pub const MOST_BY_DEFINITION: usize = 4;

/// All vectors, rising, of the closure set: w XOR the vector is on or free for
/// each on point w.
pub fn closure_set(n: usize, on: &[u16], free: &[u16]) -> Vec<u16> {
    let allowed = space::flags(n, &space::union(on, free));
    let closes = |&vector: &u16| on.iter().all(|w| allowed[usize::from(w ^ vector)]);
    (0..1u16 << n).filter(closes).collect()
}

/// Whether a set of vectors is a space: it holds 0, and with two vectors their XOR.
fn is_space(vectors: &[u16]) -> bool {
    let has_sums = |first: &u16| {
        vectors
            .iter()
            .all(|second| vectors.contains(&(first ^ second)))
    };
    vectors.contains(&0) && vectors.iter().all(has_sums)
}

/// The vectors of every space of n variables, n at most 4, found among all sets of
/// vectors.
pub fn every_space(n: usize) -> &'static [Vec<u16>] {
    static LISTS: [OnceLock<Vec<Vec<u16>>>; MOST_BY_DEFINITION + 1] =
        [const { OnceLock::new() }; MOST_BY_DEFINITION + 1];
    LISTS[n].get_or_init(|| {
        let vectors_of = |set: u32| (0..1u16 << n).filter(move |vector| set >> vector & 1 == 1);
        let sets = (0..1u32 << (1 << n)).map(|set| vectors_of(set).collect());
        sets.filter(|vectors: &Vec<u16>| is_space(vectors))
            .collect()
    })
}

/// By the bare definition, for n at most 4: of all spaces inside the set those of
/// the largest dimension, and of these the reduced basis that comes first.
pub fn largest_by_definition(n: usize, set: &[u16]) -> Vec<u16> {
    let lies_inside = |space: &&Vec<u16>| space.iter().all(|vector| set.contains(vector));
    let inside: Vec<&Vec<u16>> = every_space(n).iter().filter(lies_inside).collect();
    let most = inside.iter().map(|space| space.len()).max();
    let largest = inside.iter().filter(|space| Some(space.len()) == most);
    let first = largest.map(|space| space::reduced_basis(space)).min();
    first.expect("the set holds 0")
}

/// Whether the set holds every vector of a space moved by XOR with a vector.
fn holds_moved(flags: &[bool], space: &[u16], vector: u16) -> bool {
    space
        .iter()
        .all(|member| flags[usize::from(member ^ vector)])
}

/// By growth: a space inside the set and its copy moved by a vector outside it make
/// a space of one dimension more, and each larger space inside the set is made so.
/// Of all spaces of the last dimension that there are, the first reduced basis.
pub fn largest_by_growth(n: usize, set: &[u16]) -> Vec<u16> {
    let flags = space::flags(n, set);
    let mut bases = BTreeSet::from([Vec::new()]);
    loop {
        let mut grown = BTreeSet::new();
        for basis in &bases {
            let space = space::span(basis);
            for &vector in set {
                if !space.contains(&vector) && holds_moved(&flags, &space, vector) {
                    let moved = space.iter().map(|member| member ^ vector);
                    let larger: Vec<u16> = space.iter().copied().chain(moved).collect();
                    grown.insert(space::reduced_basis(&larger));
                }
            }
        }
        if grown.is_empty() {
            return bases.pop_first().expect("the space of 0 alone at least");
        }
        bases = grown;
    }
}

/// Vectors that can be in a larger space inside the set together with a space that
/// is inside it: the set holds the space moved by them.
fn joining(flags: &[bool], space: &[u16], vectors: &[u16]) -> Vec<u16> {
    let joins = |&&vector: &&u16| holds_moved(flags, space, vector);
    vectors.iter().filter(joins).copied().collect()
}

/// The first reduced basis of a dimension that begins with some vectors, of a space
/// inside the set. Each vector of that space joins the span of the beginning, so at
/// least 2^dimension vectors must; and leads rise, so that the next one leaves a
/// variable above it for each vector that is still to come.
fn first_of_dimension(
    flags: &[bool],
    dimension: usize,
    start: &[u16],
    vectors: &[u16],
) -> Option<Vec<u16>> {
    let space = space::span(start);
    let joining = joining(flags, &space, vectors);
    if joining.len() < 1 << dimension {
        return None;
    }
    if start.len() == dimension {
        return Some(start.to_vec());
    }
    let leads = space::leads(start);
    let last = start.last().copied().unwrap_or(0);
    let to_come = dimension - start.len() - 1;
    let is_next = |&&vector: &&u16| {
        vector > last && vector & leads == 0 && usize::from(vector) < flags.len() >> to_come
    };
    let mut next = joining.iter().filter(is_next);
    next.find_map(|&vector| {
        let longer = [start, &[vector]].concat();
        first_of_dimension(flags, dimension, &longer, &joining)
    })
}

/// By falling dimension, for any n: the first reduced basis of the largest dimension
/// that has one. Lists that begin alike are tried together, the smaller vector
/// first, so that the first one found comes first.
pub fn largest_by_dimension(n: usize, set: &[u16]) -> Vec<u16> {
    let flags = space::flags(n, set);
    let mut dimensions = (0..=set.len().ilog2() as usize).rev();
    let found = dimensions.find_map(|dimension| first_of_dimension(&flags, dimension, &[], set));
    found.expect("the space of 0 alone at least")
}

/// The reduced basis of the largest space inside a set that holds 0; of several, the
/// one that comes first vector by vector. By the bare definition up to three
/// variables, by falling dimension above.
pub fn largest_space(n: usize, set: &[u16]) -> Vec<u16> {
    if n <= 3 {
        largest_by_definition(n, set)
    } else {
        largest_by_dimension(n, set)
    }
}

/// Every point XOR every vector of a space given by a basis, rising.
pub fn spread(points: &[u16], basis: &[u16]) -> Vec<u16> {
    let space = space::span(basis);
    let all = points
        .iter()
        .flat_map(|w| space.iter().map(move |vector| w ^ vector));
    all.collect::<BTreeSet<u16>>().into_iter().collect()
}

/// Whether the rule of document 01 completes a table and has free points to do it
/// with: the report says so.
pub fn is_simple(n: usize, free: &[u16]) -> bool {
    n > MOST_CLOSURE_VARIABLES && !free.is_empty()
}

/// The completed function's on points, its degree, and the degrees k0 and k1
/// with all free points off and with all of them on.
pub fn complete(n: usize, on: &[u16], free: &[u16]) -> (Vec<u16>, usize, usize, usize) {
    let all = space::union(on, free);
    let k0 = space::linear_space(n, on).len();
    let k1 = space::linear_space(n, &all).len();
    if n <= MOST_CLOSURE_VARIABLES {
        let basis = largest_space(n, &closure_set(n, on, free));
        (spread(on, &basis), basis.len(), k0, k1)
    } else if k1 > k0 {
        (all, k1, k0, k1)
    } else {
        (on.to_vec(), k0, k0, k1)
    }
}
