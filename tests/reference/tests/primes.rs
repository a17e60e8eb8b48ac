//! Candidates, primes and listings. Follows document 01, section "Primes", and
//! document 02, No. 6.

use reference::calls;
use reference::generate::{self, Generator};
use reference::numbers::ListingNumbers;
use reference::primes::{self, Pseudocube, CUBE_LENGTH, RECORD_LENGTH};
use reference::table::MOST_VARIABLES;
use std::collections::BTreeSet;

#[test]
fn counts_of_candidates() {
    let counts: Vec<usize> = (0..=6).map(|n| primes::candidates(n).len()).collect();
    assert_eq!(counts, [1, 3, 11, 51, 307, 2451, 26387]);
    assert_eq!(primes::candidates(0)[0].members, 1);
}

#[test]
fn candidates_are_all_sets_that_are_pseudocubes() {
    for n in 1..=4 {
        let sets = 0..1u64 << (1 << n);
        let expected: BTreeSet<u64> = sets.filter(|&set| primes::is_pseudocube(set)).collect();
        let candidates = primes::candidates(n);
        let found: BTreeSet<u64> = candidates.iter().map(|cube| cube.members).collect();
        assert_eq!(found, expected);
        assert_eq!(found.len(), candidates.len());
    }
}

/// Whether one candidate stands before another, by the stated order.
fn comes_before(left: &Pseudocube, right: &Pseudocube) -> bool {
    if left.basis.len() != right.basis.len() {
        return left.basis.len() > right.basis.len();
    }
    if left.least != right.least {
        return left.least < right.least;
    }
    left.basis < right.basis
}

#[test]
fn candidates_stand_in_order() {
    for n in 1..=6 {
        let mut pairs = primes::candidates(n).windows(2);
        assert!(pairs.all(|pair| comes_before(&pair[0], &pair[1])));
    }
    let planes = primes::candidates(3)
        .iter()
        .filter(|cube| cube.basis.len() == 2 && cube.least == 0);
    let bases: Vec<Vec<u16>> = planes.map(|cube| cube.basis.clone()).collect();
    let expected = [[1, 2], [1, 4], [1, 6], [2, 4], [2, 5], [3, 4], [3, 5]];
    assert_eq!(bases, expected);
}

#[test]
fn growth_agrees_with_the_definition_on_every_small_table() {
    for n in 0..=3 {
        let full = (1u64 << (1 << n)) - 1;
        for on in 0..=full {
            for free in (0..=full).filter(|free| free & on == 0) {
                for cube in primes::candidates(n) {
                    let bare = primes::is_prime_by_definition(n, on, free, cube);
                    assert_eq!(primes::is_prime_by_growth(n, on, free, cube), bare);
                }
            }
        }
    }
}

/// Primality with every candidate tried as the larger pseudocube.
fn is_prime_among_candidates(n: usize, on: u64, free: u64, cube: &Pseudocube) -> bool {
    let inside = on | free;
    let members = cube.members;
    let larger = primes::candidates(n).iter().any(|other| {
        other.members != members
            && other.members & members == members
            && other.members & !inside == 0
    });
    members & !inside == 0 && members & on != 0 && !larger
}

#[test]
fn growth_agrees_with_all_candidates_on_random_tables() {
    let mut generator = Generator::new(4);
    for (n, rounds) in [(4, 200), (5, 40), (6, 6)] {
        for round in 0..rounds {
            let (on_percent, free_percent) = (10 + 20 * (round % 4), 10 * (round % 3));
            let (_, on, free) = generate::random_table(&mut generator, n, on_percent, free_percent);
            let (on, free) = (primes::set_of(&on), primes::set_of(&free));
            for cube in primes::candidates(n) {
                let expected = is_prime_among_candidates(n, on, free, cube);
                assert_eq!(primes::is_prime(n, on, free, cube), expected);
            }
        }
    }
}

#[test]
fn primes_of_free_points_alone_are_not_listed() {
    let records = |on: &[u16], free: &[u16]| primes::primes(2, on, free).len();
    assert_eq!(records(&[], &[0, 1, 2, 3]), 0);
    assert_eq!(records(&[0], &[1, 2]), 2);
    assert_eq!(records(&[0], &[1, 2, 3]), 1);
}

/// Lists a table in calls of random allowance and room, refused calls mixed in;
/// the records handed over, joined.
fn list_in_pages(generator: &mut Generator, n: usize, on: &[u16], free: &[u16]) -> Vec<u8> {
    let end = primes::candidates(n).len();
    let (mut place, mut passed, mut joined) = (0, 0, Vec::new());
    while place < end {
        let beyond = end + 1 + generator.below(5);
        let refused = calls::list_primes(n, on, free, beyond, 1, &mut [7; RECORD_LENGTH]);
        assert_eq!(refused.refusal, 9);
        let allowance = generator.below(end / 3 + 2);
        let mut room = vec![7; generator.below(60)];
        let answer = calls::list_primes(n, on, free, place, allowance, &mut room);
        assert_eq!(answer.refusal, 0);
        assert_eq!(answer.passed, answer.next_place - place);
        assert!(answer.passed <= allowance);
        let used = RECORD_LENGTH * answer.records;
        assert!(room[used..].iter().all(|&byte| byte == 7));
        joined.extend_from_slice(&room[..used]);
        place = answer.next_place;
        passed += answer.passed;
    }
    assert_eq!(passed, end);
    joined
}

#[test]
fn pages_join_to_all_primes_in_order() {
    let mut generator = Generator::new(5);
    for n in 1..=6 {
        for _ in 0..3 {
            let (_, on, free) = generate::random_table(&mut generator, n, 50, 20);
            let joined = list_in_pages(&mut generator, n, &on, &free);
            let all = primes::primes(n, &on, &free);
            let on = primes::set_of(&on);
            let records = all.iter().flat_map(|cube| primes::record(on, cube));
            let expected: Vec<u8> = records.collect();
            assert_eq!(joined, expected);
        }
    }
}

const P6_ON: [u16; 5] = [2, 3, 5, 6, 7];

/// An accepted listing's numbers.
fn numbers(next_place: usize, passed: usize, records: usize) -> ListingNumbers {
    ListingNumbers {
        refusal: 0,
        next_place,
        passed,
        records,
    }
}

#[test]
fn a_listing_stops_at_room_allowance_or_end() {
    let first = primes::candidates(3)
        .iter()
        .position(|cube| cube.basis == [1, 4] && cube.least == 2)
        .expect("the first prime is a candidate");
    for length in 0..RECORD_LENGTH {
        let mut room = vec![7; length];
        let answer = calls::list_primes(3, &P6_ON, &[], 0, 51, &mut room);
        assert_eq!(answer, numbers(first, first, 0));
        assert_eq!(room, vec![7; length]);
    }
    let mut room = [7; 5 * RECORD_LENGTH];
    let answer = calls::list_primes(3, &P6_ON, &[], 0, usize::MAX, &mut room);
    assert_eq!(answer, numbers(51, 51, 5));
    let answer = calls::list_primes(3, &P6_ON, &[], 51, usize::MAX, &mut room);
    assert_eq!(answer, numbers(51, 0, 0));
    let answer = calls::list_primes(3, &P6_ON, &[], 20, 0, &mut room);
    assert_eq!(answer, numbers(20, 0, 0));
    let answer = calls::list_primes(3, &P6_ON, &[], first, 1, &mut room);
    assert_eq!(answer, numbers(first + 1, 1, 1));
}

/// P6's first prime has four points, which are on or free here; only those that are
/// on count.
#[test]
fn on_points_of_a_prime_are_counted() {
    let count = |on: &[u16], free: &[u16]| {
        let mut room = [7; RECORD_LENGTH];
        let answer = calls::list_primes(3, on, free, 0, usize::MAX, &mut room);
        assert_eq!((answer.refusal, answer.records), (0, 1));
        assert_eq!(room[..CUBE_LENGTH], [2, 2, 1, 4, 0, 0, 0, 0]);
        room[CUBE_LENGTH]
    };
    assert_eq!(count(&[2, 3, 6, 7], &[]), 4);
    assert_eq!(count(&[2, 6, 7], &[3]), 3);
    assert_eq!(count(&[3], &[2, 6, 7]), 1);
}

#[test]
fn refusals_of_a_listing_in_order() {
    let mut room = [7; 64];
    let mut refusal = |n, on: &[u16], free: &[u16], place| {
        let answer = calls::list_primes(n, on, free, place, 1, &mut room);
        let expected = ListingNumbers {
            refusal: answer.refusal,
            ..ListingNumbers::default()
        };
        assert_eq!(answer, expected);
        assert_eq!(room, [7; 64]);
        answer.refusal
    };
    assert_eq!(refusal(0, &[], &[], 99_999), 1);
    assert_eq!(refusal(MOST_VARIABLES + 1, &[9000], &[], 99_999), 1);
    assert_eq!(refusal(7, &[128], &[], 99_999), 2);
    assert_eq!(refusal(7, &[1, 1], &[128], 99_999), 2);
    assert_eq!(refusal(7, &[1, 1], &[1], 99_999), 3);
    assert_eq!(refusal(7, &[1], &[1], 99_999), 4);
    assert_eq!(refusal(7, &[1], &[2], 99_999), 5);
    assert_eq!(refusal(6, &[1], &[2], 26_388), 9);
}
