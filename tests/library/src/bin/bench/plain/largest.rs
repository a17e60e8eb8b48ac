//! The largest space inside a set of vectors: depth first over reduced bases, the
//! least vector first, and what a vector leaves of the set narrowed by it. Follows
//! document 02, No. 4.

use super::vector_sets::{VectorSet, AFTER};
use library::Basis;

/// The most vectors of a reduced basis inside the set: one for each lead from the
/// least one on.
fn most_vectors(set: VectorSet, n: usize) -> usize {
    set.least().map_or(0, |vector| n - vector.ilog2() as usize)
}

/// Lets `best` be the longest basis that begins with `prefix` and goes on with
/// vectors of the set, if it is longer; the first of them.
fn search(best: &mut Basis, prefix: &mut Basis, set: VectorSet, n: usize) {
    if prefix.len > best.len {
        *best = *prefix;
    }
    for vector in set.vectors() {
        let lead = vector.ilog2() as usize;
        if prefix.len + n - lead <= best.len {
            break;
        }
        let next = set.and(set.moved(vector)).and(AFTER[lead]);
        if prefix.len + 1 + most_vectors(next, n) <= best.len {
            continue;
        }
        prefix.vectors[prefix.len] = vector;
        prefix.len += 1;
        search(best, prefix, next, n);
        prefix.len -= 1;
        prefix.vectors[prefix.len] = 0;
    }
}

/// The reduced basis of the largest space inside a set that has 0.
pub fn largest(n: usize, set: VectorSet) -> Basis {
    let (mut best, mut prefix) = (Basis::default(), Basis::default());
    let others = set.without(VectorSet::of(&[0]));
    search(&mut best, &mut prefix, others, n);
    best
}

/// Every point of a set XOR every vector of the space of a basis.
pub fn spread(points: VectorSet, basis: &Basis) -> VectorSet {
    let vectors = &basis.vectors[..basis.len];
    vectors
        .iter()
        .fold(points, |set, &vector| set.or(set.moved(vector)))
}
