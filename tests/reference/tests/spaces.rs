//! Spaces, restriction and smallest affine spaces compared with the bare
//! definitions, on every small function and on random larger ones.
//! Follows document 01, section "Points and spaces".

use reference::form;
use reference::generate::{self, Generator};
use reference::primes;
use reference::space;
use reference::table::MOST_VARIABLES;
use std::collections::BTreeSet;

/// The points of the set whose number has these bits.
fn subset(set: u64) -> Vec<u16> {
    primes::points_of(set)
}

/// Checks a function against its space: closed vectors make the space of the
/// reduced basis, and the restriction with the equations gives the function.
fn check_function(n: usize, on: &[u16]) {
    let closed = space::closed_vectors(n, on);
    let basis = space::linear_space(n, on);
    assert!(primes::is_reduced(&basis));
    assert_eq!(space::span(&basis), closed);
    let equations = space::equations(n, &basis);
    let restriction = space::restriction(n, on, &basis);
    assert_eq!(equations.len(), n - basis.len());
    assert!(restriction.windows(2).all(|pair| pair[0] < pair[1]));
    let in_restriction = space::flags(equations.len(), &restriction);
    let flags = space::flags(n, on);
    for point in 0..1u16 << n {
        let values = equations.iter().map(|&mask| form::parity(mask, point));
        let image = values.fold(0, |number, value| 2 * number + usize::from(value));
        assert_eq!(flags[usize::from(point)], in_restriction[image]);
    }
    if !equations.is_empty() {
        assert!(space::linear_space(equations.len(), &restriction).is_empty());
    }
}

/// The smallest set with the given points that with p, q and r holds
/// p XOR q XOR r.
fn closure(points: &[u16]) -> Vec<u16> {
    let mut closed: BTreeSet<u16> = points.iter().copied().collect();
    loop {
        let members: Vec<u16> = closed.iter().copied().collect();
        for &first in &members {
            for &second in &members {
                closed.extend(members.iter().map(|third| first ^ second ^ third));
            }
        }
        if closed.len() == members.len() {
            return members;
        }
    }
}

/// Checks the smallest affine space of a set against its closure.
fn check_affine(n: usize, on: &[u16]) {
    let (least, basis, projection) = space::affine(n, on).expect("an accepted set");
    let points = closure(on);
    let members: BTreeSet<u16> = space::span(&basis)
        .iter()
        .map(|vector| vector ^ least)
        .collect();
    assert!(primes::is_reduced(&basis));
    assert_eq!(members.into_iter().collect::<Vec<u16>>(), points);
    assert_eq!(least, points[0]);
    assert_eq!(projection.len(), on.len());
    assert!(projection.windows(2).all(|pair| pair[0] < pair[1]));
    assert!(projection
        .iter()
        .all(|&point| usize::from(point) < 1 << basis.len()));
}

#[test]
fn every_function_of_up_to_four_variables() {
    for n in 1..=4 {
        for set in 0..1u64 << (1 << n) {
            check_function(n, &subset(set));
        }
    }
}

#[test]
fn every_set_of_up_to_three_variables_has_its_affine_space() {
    for n in 1..=3 {
        assert_eq!(space::affine(n, &[]), Err(6));
        for set in 1..1u64 << (1 << n) {
            check_affine(n, &subset(set));
        }
    }
}

#[test]
fn random_functions_of_every_number_of_variables() {
    let mut generator = Generator::new(1);
    for n in 1..=MOST_VARIABLES {
        for dimension in 0..=n {
            let (_, on, _) = generate::closed_table(&mut generator, n, dimension, 40);
            check_function(n, &on);
            assert!(space::linear_space(n, &on).len() >= dimension);
        }
        let (_, on, _) = generate::random_table(&mut generator, n, 50, 0);
        check_function(n, &on);
    }
}

#[test]
fn random_affine_spaces() {
    let mut generator = Generator::new(2);
    for n in 4..=7 {
        for _ in 0..20 {
            let directions = space::span(&generate::random_space(&mut generator, n, n - 3));
            let origin = generator.below(1 << n) as u16;
            let all = directions.iter().map(|vector| vector ^ origin);
            let mut on: Vec<u16> = all.filter(|_| generator.chance(60)).collect();
            on.push(origin);
            on.sort_unstable();
            on.dedup();
            check_affine(n, &on);
        }
    }
    let (least, basis, projection) = space::affine(12, &[4095]).expect("one point");
    assert_eq!((least, basis, projection), (4095, vec![], vec![0]));
}

#[test]
fn affine_space_of_full_dimension() {
    let on = [0, 1, 2, 4];
    let full = (0, vec![1, 2, 4], on.to_vec());
    assert_eq!(space::affine(3, &on), Ok(full));
}

#[test]
fn the_first_witness_counts_off_points() {
    let flags = space::flags(2, &[3]);
    assert_eq!(space::first_witness(&flags, &[0, 1, 2]), Some((1, 2)));
    assert_eq!(space::first_witness(&flags, &[0]), None);
    assert_eq!(space::first_witness(&flags, &[]), None);
}
