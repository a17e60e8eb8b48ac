//! The primes that a form takes: for each point that isn't covered, the first in
//! listing order that holds it. Of each basis only the coset of the point can, so
//! no list of all primes is made. Follows document 01, section "The written form".

use super::bases::{bases, Entry};
use super::sets::{moved, prime_count};

/// A prime: its degree, its least point and its basis.
#[derive(Clone, Copy)]
pub struct Prime {
    pub degree: usize,
    pub least: u16,
    pub entry: &'static Entry,
}

impl Prime {
    /// The vectors of the basis.
    fn vectors(&self) -> &[u8] {
        &self.entry.vectors[..self.degree]
    }

    /// The points, as a set.
    fn members(&self) -> u64 {
        let grow = |set: u64, &vector: &u8| set | moved(set, vector);
        self.vectors().iter().fold(1 << self.least, grow)
    }
}

/// The first prime of one degree that holds a point: of those with the same least
/// point the first of the table.
fn first_of_degree(on: u64, kept: usize, degree: usize, point: u16) -> Option<Prime> {
    let mut best: Option<Prime> = None;
    for entry in &bases()[degree] {
        if entry.leads >= 1 << kept {
            continue;
        }
        let vectors = &entry.vectors[..degree];
        let clear = |rest: u16, &vector: &u8| rest.min(rest ^ u16::from(vector));
        let least = vectors.iter().fold(point, clear);
        let stays = best.is_some_and(|found| found.least <= least);
        if !stays && prime_count(on, on, vectors, u64::from(least)) > 0 {
            best = Some(Prime {
                degree,
                least,
                entry,
            });
        }
    }
    best
}

/// The primes taken for the function of so many variables with these on points,
/// in order.
pub fn choose(on: u64, kept: usize) -> Vec<Prime> {
    let mut covered = 0u64;
    let mut taken = Vec::new();
    for point in 0..1u16 << kept {
        if (on & !covered) >> point & 1 == 0 {
            continue;
        }
        let mut degrees = (0..=kept).rev();
        let first = degrees.find_map(|degree| first_of_degree(on, kept, degree, point));
        let prime = first.expect("each on point lies in some prime");
        covered |= prime.members();
        taken.push(prime);
    }
    taken
}
