//! Linear spaces, reduced bases, reduction equations, restriction and the smallest
//! affine space, each straight from its definition.
//! Follows document 01, section "Points and spaces".

use crate::refusal;
use crate::table;
use std::collections::BTreeSet;

/// One flag to a point: set for the points listed.
pub fn flags(n: usize, points: &[u16]) -> Vec<bool> {
    let mut flags = vec![false; 1 << n];
    for &point in points {
        flags[usize::from(point)] = true;
    }
    flags
}

/// The first vector of the list, and the first point w, such that just one of
/// w and w XOR the vector is on; none if the function is closed under them all.
pub fn first_witness(flags: &[bool], vectors: &[u16]) -> Option<(u16, u16)> {
    for &vector in vectors {
        for point in 0..flags.len() {
            if flags[point] != flags[point ^ usize::from(vector)] {
                return Some((vector, point as u16));
            }
        }
    }
    None
}

/// All vectors, rising, under which the function with these on points is closed.
pub fn closed_vectors(n: usize, on: &[u16]) -> Vec<u16> {
    let flags = flags(n, on);
    let vectors = 0..1u16 << n;
    let closed = vectors.filter(|&vector| first_witness(&flags, &[vector]).is_none());
    closed.collect()
}

/// The highest set bit of a vector, as a number with that bit alone.
pub fn lead(vector: u16) -> u16 {
    let bits = (0..16).rev().map(|place| 1u16 << place);
    let mut set_bits = bits.filter(|bit| vector & bit != 0);
    set_bits.next().unwrap_or(0)
}

/// All lead bits of a list of vectors together.
pub fn leads(vectors: &[u16]) -> u16 {
    vectors.iter().fold(0, |all, &vector| all | lead(vector))
}

/// The reduced basis of a space given by all its vectors: for each lead that
/// occurs, the vector with this lead and no other lead bit, in rising order.
pub fn reduced_basis(space: &[u16]) -> Vec<u16> {
    let leads = leads(space);
    let chosen = space
        .iter()
        .filter(|&&vector| vector != 0 && vector & leads == lead(vector));
    let mut basis: Vec<u16> = chosen.copied().collect();
    basis.sort_unstable();
    basis
}

/// All vectors, rising, of the smallest space that holds the given ones.
pub fn span(vectors: &[u16]) -> Vec<u16> {
    let mut space = BTreeSet::from([0u16]);
    for &vector in vectors {
        if !space.contains(&vector) {
            let moved: Vec<u16> = space.iter().map(|member| member ^ vector).collect();
            space.extend(moved);
        }
    }
    space.into_iter().collect()
}

/// Reduced basis of the linear space of the function with these on points.
pub fn linear_space(n: usize, on: &[u16]) -> Vec<u16> {
    reduced_basis(&closed_vectors(n, on))
}

/// The points of two lists together, rising.
pub fn union(on: &[u16], free: &[u16]) -> Vec<u16> {
    let points: BTreeSet<u16> = on.iter().chain(free).copied().collect();
    points.into_iter().collect()
}

/// The bit of the variable with this index: x1 is the highest bit.
pub fn variable_bit(n: usize, index: usize) -> u16 {
    1 << (n - index)
}

/// Indices, rising, of the variables whose bit is set in a mask.
pub fn variables_of(n: usize, mask: u16) -> Vec<usize> {
    let indices = 1..=n;
    indices
        .filter(|&index| mask & variable_bit(n, index) != 0)
        .collect()
}

/// Indices of the canonical variables, rising.
pub fn canonical_variables(n: usize, basis: &[u16]) -> Vec<usize> {
    variables_of(n, leads(basis))
}

/// Indices of the noncanonical variables, rising.
pub fn noncanonical_variables(n: usize, basis: &[u16]) -> Vec<usize> {
    variables_of(n, !leads(basis))
}

/// The right sides of the reduction equations, as masks: each noncanonical
/// variable with the leads of the basis vectors that have it set.
pub fn equations(n: usize, basis: &[u16]) -> Vec<u16> {
    let mut masks = Vec::new();
    for index in noncanonical_variables(n, basis) {
        let bit = variable_bit(n, index);
        let holders = basis.iter().filter(|&&vector| vector & bit != 0);
        masks.push(holders.fold(bit, |mask, &vector| mask ^ lead(vector)));
    }
    masks
}

/// The bits of the listed variables of a point, the others dropped.
pub fn keep_variables(n: usize, point: u16, indices: &[usize]) -> u16 {
    let mut kept = 0;
    for &index in indices {
        let value = u16::from(point & variable_bit(n, index) != 0);
        kept = 2 * kept + value;
    }
    kept
}

/// The points with all canonical variables 0, those bits dropped.
pub fn restriction(n: usize, on: &[u16], basis: &[u16]) -> Vec<u16> {
    let canonical = leads(basis);
    let kept = noncanonical_variables(n, basis);
    let chosen = on.iter().filter(|&&point| point & canonical == 0);
    chosen
        .map(|&point| keep_variables(n, point, &kept))
        .collect()
}

/// Smallest affine space that holds the on points: its least point, the
/// reduced basis of its directions, and the projection of the on points.
/// Refusals 1, 2, 3 and 6.
pub fn affine(n: usize, on: &[u16]) -> Result<(u16, Vec<u16>, Vec<u16>), u8> {
    table::check(n, on, &[])?;
    let Some(&first) = on.first() else {
        return Err(refusal::EMPTY_ON_SET);
    };
    let differences: Vec<u16> = on.iter().map(|point| point ^ first).collect();
    let directions = span(&differences);
    let points = directions.iter().map(|direction| direction ^ first);
    let least = points.min().unwrap_or(first);
    let basis = reduced_basis(&directions);
    let kept = canonical_variables(n, &basis);
    let projection = on
        .iter()
        .map(|&point| keep_variables(n, point, &kept))
        .collect();
    Ok((least, basis, projection))
}
