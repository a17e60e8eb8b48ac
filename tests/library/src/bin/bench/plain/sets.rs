//! Sets of points of at most six variables as numbers of 64 bits, and the test
//! for a prime, of all cosets of a basis at once. Follows document 01, section
//! "Primes".

use super::bases::MOST_VARIABLES;

/// The places whose number has bit k clear.
const LOW_PLACES: [u64; MOST_VARIABLES] = [
    0x5555_5555_5555_5555,
    0x3333_3333_3333_3333,
    0x0F0F_0F0F_0F0F_0F0F,
    0x00FF_00FF_00FF_00FF,
    0x0000_FFFF_0000_FFFF,
    0x0000_0000_FFFF_FFFF,
];

/// The set with each point x moved to x XOR the vector.
pub fn moved(set: u64, vector: u8) -> u64 {
    let mut turned = set;
    for (place, low) in LOW_PLACES.into_iter().enumerate() {
        if vector >> place & 1 == 1 {
            let width = 1 << place;
            turned = turned >> width & low | (turned & low) << width;
        }
    }
    turned
}

/// The number of on points in the coset of a point, if it lies inside on plus free as
/// the only one of its basis; else 0.
pub fn prime_count(on: u64, inside: u64, vectors: &[u8], point: u64) -> u32 {
    let fold = |set: u64, &vector: &u8| set & moved(set, vector);
    let every = vectors.iter().fold(inside, fold);
    if every >> point & 1 == 0 || every.count_ones() != 1 << vectors.len() {
        return 0;
    }
    (every & on).count_ones()
}

/// The set of the listed points.
pub fn set_of(points: &[u16]) -> u64 {
    points.iter().fold(0, |set, &point| set | 1 << point)
}
