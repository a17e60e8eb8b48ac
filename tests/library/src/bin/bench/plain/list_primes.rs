//! The listing call in plain Rust: all cosets of a basis tested at once; whole
//! degrees and whole points before the place passed at once, or points one basis
//! after the other. Follows document 01, section "Primes", and document 02, No. 6.

use super::bases::{bases, MOST_VARIABLES};
use super::sets::{prime_count, set_of};
use super::table::checked;
use library::Listed;
use std::sync::OnceLock;

const RECORD_LENGTH: usize = 9;

/// Numbers of candidates for n from 0 to 6.
const ENDS: [u64; 7] = [1, 3, 11, 51, 307, 2_451, 26_387];

/// A number for each of 0 to 6 variables, each degree and each least point.
type PointCounts = [[[u64; 1 << MOST_VARIABLES]; MOST_VARIABLES + 1]; MOST_VARIABLES + 1];

/// How many candidates of n variables and of a degree have a least point, made once.
fn point_counts() -> &'static PointCounts {
    static COUNTS: OnceLock<Box<PointCounts>> = OnceLock::new();
    COUNTS.get_or_init(|| {
        let mut counts: Box<PointCounts> =
            Box::new([[[0; 64]; MOST_VARIABLES + 1]; MOST_VARIABLES + 1]);
        for (n, degrees) in counts.iter_mut().enumerate() {
            for (degree, points) in degrees.iter_mut().enumerate() {
                for (point, count) in points.iter_mut().enumerate().take(1 << n) {
                    let is_taken = |leads: u64| leads < 1 << n && point as u64 & leads == 0;
                    let all = bases()[degree].iter().map(|entry| u64::from(entry.leads));
                    *count = all.filter(|&leads| is_taken(leads)).count() as u64;
                }
            }
        }
        counts
    })
}

/// How many candidates of each degree n variables have, made once.
fn degree_counts() -> &'static [[u64; MOST_VARIABLES + 1]; MOST_VARIABLES + 1] {
    static COUNTS: OnceLock<[[u64; MOST_VARIABLES + 1]; MOST_VARIABLES + 1]> = OnceLock::new();
    let sum = |points: &[u64; 1 << MOST_VARIABLES]| points.iter().sum();
    COUNTS.get_or_init(|| {
        point_counts()
            .each_ref()
            .map(|degrees| degrees.each_ref().map(sum))
    })
}

/// The point at which a degree goes on behind so many of its candidates, and how many
/// of these are left from there on.
fn first_point(n: usize, degree: usize, mut skip: u64) -> (u64, u64) {
    let counts = &point_counts()[n][degree];
    for (point, &count) in counts.iter().enumerate().take((1 << n) - 1) {
        if skip < count {
            return (point as u64, skip);
        }
        skip -= count;
    }
    ((1 << n) - 1, skip)
}

/// Passes candidates; the number passed and the number of records. Points before the
/// place are passed whole, or one basis after the other.
fn walk(
    n: usize,
    (on, inside): (u64, u64),
    (place, allowance): (u64, u64),
    whole_points: bool,
    room: &mut [u8],
) -> (u64, usize) {
    let (mut skip, mut passed, mut records) = (place, 0, 0);
    for degree in (0..=n).rev() {
        let count = degree_counts()[n][degree];
        if degree > 0 && skip >= count {
            skip -= count;
            continue;
        }
        let mut first = 0;
        if whole_points {
            (first, skip) = first_point(n, degree, skip);
        }
        for point in first..1u64 << n {
            for entry in &bases()[degree] {
                let leads = u64::from(entry.leads);
                if leads >= 1 << n || point & leads != 0 {
                    continue;
                }
                if skip > 0 {
                    skip -= 1;
                    continue;
                }
                if passed == allowance {
                    return (passed, records);
                }
                let count = prime_count(on, inside, &entry.vectors[..degree], point);
                if count > 0 {
                    let start = RECORD_LENGTH * records;
                    let Some(record) = room.get_mut(start..start + RECORD_LENGTH) else {
                        return (passed, records);
                    };
                    record[0] = degree as u8;
                    record[1] = point as u8;
                    record[2..RECORD_LENGTH - 1].copy_from_slice(&entry.vectors);
                    record[RECORD_LENGTH - 1] = count as u8;
                    records += 1;
                }
                passed += 1;
            }
        }
    }
    (passed, records)
}

fn try_list_primes(
    (n, on, free): (usize, &[u16], &[u16]),
    (place, allowance): (u64, u64),
    whole_points: bool,
    room: &mut [u8],
) -> Result<Listed, u8> {
    checked(n, on, free)?;
    if n > MOST_VARIABLES {
        return Err(5);
    }
    if place > ENDS[n] {
        return Err(9);
    }
    let on = set_of(on);
    let sets = (on, on | set_of(free));
    let (passed, records) = walk(n, sets, (place, allowance), whole_points, room);
    Ok(Listed {
        refusal: 0,
        next: place + passed,
        passed,
        records,
    })
}

/// Numbers of a refused call.
fn refused(refusal: u8) -> Listed {
    Listed {
        refusal,
        ..Listed::default()
    }
}

/// The call.
pub fn list_primes(
    n: usize,
    on: &[u16],
    free: &[u16],
    place: u64,
    allowance: u64,
    room: &mut [u8],
) -> Listed {
    try_list_primes((n, on, free), (place, allowance), true, room).unwrap_or_else(refused)
}

/// The same call that looks for its place in the degree basis after basis.
pub fn list_primes_by_bases(
    n: usize,
    on: &[u16],
    free: &[u16],
    place: u64,
    allowance: u64,
    room: &mut [u8],
) -> Listed {
    try_list_primes((n, on, free), (place, allowance), false, room).unwrap_or_else(refused)
}
