//! Pseudocubes, the candidates in their order, primes, and the listing.
//! Follows document 01, section "Primes", and document 02, No. 6.
//!
//! A set of points of at most six variables is held as a number of 64 bits,
//! bit p set when the set holds point p.

use crate::refusal;
use crate::space;
use crate::table;
use std::cmp::Reverse;
use std::sync::OnceLock;

/// Most variables of a listing.
pub const MOST_LISTED: usize = 6;

/// Bytes of a record that tell the pseudocube: those of document 01.
pub const CUBE_LENGTH: usize = 8;

/// Bytes of one record: one more, for the number of on points.
pub const RECORD_LENGTH: usize = CUBE_LENGTH + 1;

/// A pseudocube: its least point, the reduced basis of its directions, and its
/// points as a set.
#[derive(Clone, Debug, PartialEq, Eq)]
pub struct Pseudocube {
    pub least: u16,
    pub basis: Vec<u16>,
    pub members: u64,
}

/// What a listing call returns beside the bytes in its room.
#[derive(Clone, Copy, Debug, Default, PartialEq, Eq)]
pub struct Listing {
    pub next_place: usize,
    pub passed: usize,
    pub records: usize,
}

/// The set of the listed points.
pub fn set_of(points: &[u16]) -> u64 {
    points.iter().fold(0, |set, &point| set | 1 << point)
}

/// The points of a set, rising.
pub fn points_of(set: u64) -> Vec<u16> {
    (0..64).filter(|&point| set >> point & 1 == 1).collect()
}

/// Whether a list of vectors is a reduced basis, by the definition.
pub fn is_reduced(vectors: &[u16]) -> bool {
    let rising = vectors.windows(2).all(|pair| pair[0] < pair[1]);
    let mut separate = true;
    for (place, &vector) in vectors.iter().enumerate() {
        for (other_place, &other) in vectors.iter().enumerate() {
            separate &= place == other_place || other & space::lead(vector) == 0;
        }
    }
    rising && separate && vectors.iter().all(|&vector| vector != 0)
}

/// Adds to `found` every reduced basis of n variables that begins with `start`.
fn add_reduced_bases(n: usize, start: &[u16], found: &mut Vec<Vec<u16>>) {
    found.push(start.to_vec());
    let after_last = start.last().map_or(1, |&last| last + 1);
    for vector in after_last..1 << n {
        let mut longer = start.to_vec();
        longer.push(vector);
        if is_reduced(&longer) {
            add_reduced_bases(n, &longer, found);
        }
    }
}

/// Every pseudocube of n variables, n at most 6, in candidate order: degree
/// falling, then least point rising, then basis vector by vector.
fn make_candidates(n: usize) -> Vec<Pseudocube> {
    let mut bases = Vec::new();
    add_reduced_bases(n, &[], &mut bases);
    let mut candidates = Vec::new();
    for basis in bases {
        let directions = space::span(&basis);
        for least in 0..1u16 << n {
            let points: Vec<u16> = directions.iter().map(|vector| vector ^ least).collect();
            if points.iter().all(|&point| least <= point) {
                candidates.push(Pseudocube {
                    least,
                    basis: basis.clone(),
                    members: set_of(&points),
                });
            }
        }
    }
    candidates.sort_by_key(|cube| (Reverse(cube.basis.len()), cube.least, cube.basis.clone()));
    candidates
}

/// The candidates of n variables in order, n from 0 to 6; made once for each n.
pub fn candidates(n: usize) -> &'static [Pseudocube] {
    static LISTS: [OnceLock<Vec<Pseudocube>>; 7] = [const { OnceLock::new() }; 7];
    LISTS[n].get_or_init(|| make_candidates(n))
}

/// Whether a set is a pseudocube: not empty, and with p, q and r it holds
/// p XOR q XOR r.
pub fn is_pseudocube(set: u64) -> bool {
    let points = points_of(set);
    for &first in &points {
        for &second in &points {
            for &third in &points {
                if set >> (first ^ second ^ third) & 1 == 0 {
                    return false;
                }
            }
        }
    }
    set != 0
}

/// Every pseudocube of n variables, n at most 3, found among all sets of points.
pub fn every_pseudocube(n: usize) -> &'static [u64] {
    static LISTS: [OnceLock<Vec<u64>>; 4] = [const { OnceLock::new() }; 4];
    LISTS[n].get_or_init(|| {
        let sets = 0..1u64 << (1 << n);
        sets.filter(|&set| is_pseudocube(set)).collect()
    })
}

/// Whether one set lies in another.
fn lies_in(inner: u64, outer: u64) -> bool {
    inner & !outer == 0
}

/// Primality by the bare definition, for n at most 3: the candidate lies inside
/// on plus free, holds an on point, and no larger pseudocube inside on plus
/// free holds it, of all that there are.
pub fn is_prime_by_definition(n: usize, on: u64, free: u64, candidate: &Pseudocube) -> bool {
    let inside = on | free;
    let cube = candidate.members;
    let larger_exists = every_pseudocube(n)
        .iter()
        .any(|&larger| larger != cube && lies_in(cube, larger) && lies_in(larger, inside));
    lies_in(cube, inside) && cube & on != 0 && !larger_exists
}

/// A set with every point moved by XOR with a vector.
fn moved(set: u64, vector: u16) -> u64 {
    let points = points_of(set);
    let moved_points: Vec<u16> = points.iter().map(|point| point ^ vector).collect();
    set_of(&moved_points)
}

/// Primality by growth, for n at most 6. A pseudocube and its copy moved by a
/// vector that isn't one of its directions make a pseudocube of twice the size;
/// and a larger pseudocube holds such a copy, moved by the difference of a point
/// inside and a point outside. So a larger one fits inside on plus free exactly
/// if some moved copy does. This uses neither the candidates nor their order.
pub fn is_prime_by_growth(n: usize, on: u64, free: u64, candidate: &Pseudocube) -> bool {
    let inside = on | free;
    let cube = candidate.members;
    if !lies_in(cube, inside) || cube & on == 0 {
        return false;
    }
    let is_direction = |vector: u16| cube >> (candidate.least ^ vector) & 1 == 1;
    let mut others = (0..1u16 << n).filter(|&vector| !is_direction(vector));
    !others.any(|vector| lies_in(moved(cube, vector), inside))
}

/// Whether a candidate is a prime: by the bare definition up to three
/// variables, by growth for four to six.
pub fn is_prime(n: usize, on: u64, free: u64, candidate: &Pseudocube) -> bool {
    if n <= 3 {
        is_prime_by_definition(n, on, free, candidate)
    } else {
        is_prime_by_growth(n, on, free, candidate)
    }
}

/// All primes of a table of n variables, n from 0 to 6, in candidate order.
pub fn primes(n: usize, on: &[u16], free: &[u16]) -> Vec<Pseudocube> {
    let (on, free) = (set_of(on), set_of(free));
    let chosen = candidates(n)
        .iter()
        .filter(|cube| is_prime(n, on, free, cube));
    chosen.cloned().collect()
}

/// How many of the on points a pseudocube holds, asked point by point.
pub fn on_points_in(on: u64, cube: &Pseudocube) -> usize {
    let is_counted = |&point: &u16| on >> point & 1 == 1 && cube.members >> point & 1 == 1;
    (0..64).filter(is_counted).count()
}

/// The record of a prime: degree, least point, basis vectors, the rest of the
/// eight bytes 0; then the number of on points in it.
pub fn record(on: u64, cube: &Pseudocube) -> [u8; RECORD_LENGTH] {
    let mut bytes = [0; RECORD_LENGTH];
    bytes[0] = cube.basis.len() as u8;
    bytes[1] = cube.least as u8;
    for (place, &vector) in cube.basis.iter().enumerate() {
        bytes[2 + place] = vector as u8;
    }
    bytes[CUBE_LENGTH] = on_points_in(on, cube) as u8;
    bytes
}

/// Passes candidates from a place on until the end, until the allowance is
/// spent, or before a prime that no longer fits in the room.
fn pass_candidates(
    n: usize,
    (on, free): (u64, u64),
    place: usize,
    allowance: usize,
    room: &mut [u8],
) -> Listing {
    let candidates = candidates(n);
    let mut next_place = place;
    let mut records = 0;
    while next_place < candidates.len() && next_place - place < allowance {
        let candidate = &candidates[next_place];
        if is_prime(n, on, free, candidate) {
            let start = RECORD_LENGTH * records;
            if room.len() < start + RECORD_LENGTH {
                break;
            }
            room[start..start + RECORD_LENGTH].copy_from_slice(&record(on, candidate));
            records += 1;
        }
        next_place += 1;
    }
    Listing {
        next_place,
        passed: next_place - place,
        records,
    }
}

/// The listing call. Refusals 1 to 5 and 9; a refused call leaves the room as
/// lent, and so are the bytes after the last record of an accepted one.
pub fn list(
    n: usize,
    on: &[u16],
    free: &[u16],
    place: usize,
    allowance: usize,
    room: &mut [u8],
) -> Result<Listing, u8> {
    table::check(n, on, free)?;
    if n > MOST_LISTED {
        return Err(refusal::ABOVE_SIX_VARIABLES);
    }
    if place > candidates(n).len() {
        return Err(refusal::PLACE_TOO_LARGE);
    }
    let sets = (set_of(on), set_of(free));
    Ok(pass_candidates(n, sets, place, allowance, room))
}
