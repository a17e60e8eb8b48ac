//! The closure set, the largest space inside a set, found in several ways, and what
//! must hold of a completed function. Follows document 02, No. 4, source 003
//! (Examples 3 to 5) and document 01, section "Points and spaces".

use reference::completion::{closure_set, complete, every_space, largest_space};
use reference::completion::{largest_by_definition, largest_by_dimension, largest_by_growth};
use reference::generate::{self, Generator};
use reference::primes;
use reference::space;
use reference::table::{Table, MOST_VARIABLES};

/// The largest space inside a set as found among the pseudocubes through 0, for n at
/// most 6: these are all spaces, by dimension falling and then by reduced basis.
fn first_candidate(n: usize, set: &[u16]) -> Vec<u16> {
    let inside = primes::set_of(set);
    let mut candidates = primes::candidates(n).iter();
    let found = candidates.find(|cube| cube.least == 0 && cube.members & !inside == 0);
    found.expect("0 alone at least").basis.clone()
}

/// Every set of vectors of n variables that holds 0.
fn every_set(n: usize) -> impl Iterator<Item = Vec<u16>> {
    let sets = (1..1u64 << (1 << n)).step_by(2);
    sets.map(primes::points_of)
}

/// Every table of three variables: 6,561 of them.
fn tables_of_three() -> impl Iterator<Item = Table> {
    let others = |on: u64| (0..256u64).filter(move |free| free & on == 0);
    let pairs = (0..256).flat_map(move |on| others(on).map(move |free| (on, free)));
    pairs.map(|(on, free)| (3, primes::points_of(on), primes::points_of(free)))
}

#[test]
fn as_many_spaces_as_there_are() {
    let counts = (0..=4).map(|n| every_space(n).len());
    assert_eq!(counts.collect::<Vec<usize>>(), [1, 2, 5, 16, 67]);
}

#[test]
fn every_set_of_up_to_four_variables() {
    for n in 1..=4 {
        for set in every_set(n) {
            let expected = largest_by_definition(n, &set);
            assert_eq!(largest_by_dimension(n, &set), expected, "{set:?}");
            assert_eq!(largest_by_growth(n, &set), expected, "{set:?}");
            assert_eq!(first_candidate(n, &set), expected, "{set:?}");
        }
    }
}

/// By growth where the set is so small that not too many spaces are kept.
#[test]
fn sets_of_five_to_eight_variables() {
    let mut generator = Generator::new(40);
    for n in 5..=8 {
        for set in generate::closure_sets(&mut generator, n) {
            let expected = largest_by_dimension(n, &set);
            if n <= 6 {
                assert_eq!(first_candidate(n, &set), expected, "{set:?}");
            }
            if n <= 6 || set.len() <= 100 {
                assert_eq!(largest_by_growth(n, &set), expected, "{set:?}");
            }
        }
    }
}

/// Of all sets that were tried the one with the most work for a search by first
/// vectors.
#[test]
fn all_outside_a_space_of_four_dimensions() {
    let set = generate::outside_first_variables(8, 4);
    assert_eq!(set.len(), 241);
    assert_eq!(largest_by_dimension(8, &set), [1, 2, 4, 8]);
    assert_eq!(largest_by_growth(8, &set), [1, 2, 4, 8]);
}

/// Growing from the least vector on would stop at 1.
#[test]
fn growth_by_the_least_vector_stops_short() {
    assert_eq!(largest_space(3, &[0, 1, 2, 4, 6]), [2, 4]);
}

#[test]
fn the_worked_example_of_the_paper() {
    let on = [4, 5, 6, 7, 9, 10, 12, 13, 14, 15];
    let free = [0, 1, 2, 3, 11];
    assert_eq!(closure_set(4, &on, &free), [0, 3, 8, 9, 10, 11]);
    let points = vec![1, 2, 4, 5, 6, 7, 9, 10, 12, 13, 14, 15];
    assert_eq!(complete(4, &on, &free), (points, 2, 1, 0));
    assert_eq!(largest_space(4, &[0, 3, 8, 9, 10, 11]), [3, 8]);
}

/// Checks a completed function of at most eight variables: it has the on points and
/// no off point, its linear space is the chosen space and no more, the space lies in
/// the closure set, and the degree isn't below those of document 01's rule.
fn check_completion((n, on, free): &Table) {
    let (points, degree, k0, k1) = complete(*n, on, free);
    let closure = closure_set(*n, on, free);
    let basis = largest_space(*n, &closure);
    let allowed = space::union(on, free);
    assert!(on.iter().all(|point| points.contains(point)));
    assert!(points.iter().all(|point| allowed.contains(point)));
    assert!(points.windows(2).all(|pair| pair[0] < pair[1]));
    assert_eq!(space::linear_space(*n, &points), basis);
    assert!(space::span(&basis)
        .iter()
        .all(|vector| closure.contains(vector)));
    assert_eq!(degree, basis.len());
    assert!(degree >= k0.max(k1));
    if free.is_empty() {
        assert_eq!((&points, degree, closure), (on, k0, space::span(&basis)));
    }
}

#[test]
fn completions_of_every_table_of_three_variables() {
    tables_of_three().for_each(|table| check_completion(&table));
}

#[test]
fn completions_of_random_tables() {
    let mut generator = Generator::new(41);
    for n in 1..=8 {
        for _ in 0..20 {
            let on_percent = generator.below(40);
            let free_percent = 20 + generator.below(80 - on_percent);
            check_completion(&generate::random_table(
                &mut generator,
                n,
                on_percent,
                free_percent,
            ));
        }
        for set in generate::closure_sets(&mut generator, n) {
            let point = generator.below(1 << n) as u16;
            let table = generate::table_with_closure_set(n, point, &set);
            assert_eq!(closure_set(n, &table.1, &table.2), set);
            check_completion(&table);
        }
    }
}

/// How many tables of three variables have a larger degree than by document 01's
/// rule, and on how many the last vectors compared first would choose otherwise.
#[test]
fn what_the_rule_changes_on_three_variables() {
    let (mut larger, mut otherwise) = (0, 0);
    for (n, on, free) in tables_of_three() {
        let (_, degree, k0, k1) = complete(n, &on, &free);
        larger += usize::from(degree > k0.max(k1));
        let set = closure_set(n, &on, &free);
        let lies_inside = |space: &Vec<u16>| space.iter().all(|vector| set.contains(vector));
        let inside = every_space(n).iter();
        let inside = inside.filter(|space| space.len() == 1 << degree && lies_inside(space));
        let reversed = |space: &Vec<u16>| space::reduced_basis(space).into_iter().rev().collect();
        let other: Vec<u16> = inside.map(reversed).min().expect("the largest space");
        let first: Vec<u16> = largest_space(n, &set).into_iter().rev().collect();
        otherwise += usize::from(other != first);
    }
    assert_eq!((larger, otherwise), (3052, 100));
}

#[test]
fn without_on_points_everything_is_off() {
    for n in 1..=MOST_VARIABLES {
        let all: Vec<u16> = (0..1 << n).collect();
        assert_eq!(complete(n, &[], &all), (vec![], n, n, n));
        let (_, _, k0, k1) = complete(n, &[], &all[1..]);
        assert_eq!((k0, k1), (n, 0));
        assert_eq!(complete(n, &[], &all[1..]).0, []);
        assert_eq!(complete(n, &[0], &all[1..]), (all.clone(), n, 0, n));
    }
}

#[test]
fn from_nine_variables_the_larger_degree_and_off_on_a_tie() {
    let mut generator = Generator::new(3);
    for n in 9..=10 {
        for dimension in [0, 0, 1, 2] {
            let function = generate::closed_table(&mut generator, n, dimension, 50);
            let (_, all, _) = &function;
            let free: Vec<u16> = all.iter().copied().step_by(7).collect();
            let on: Vec<u16> = all.iter().copied().filter(|p| !free.contains(p)).collect();
            let (points, degree, k0, k1) = complete(n, &on, &free);
            assert_eq!(&points, if k1 > k0 { all } else { &on });
            assert_eq!(degree, k0.max(k1));
            assert_eq!(degree, space::linear_space(n, &points).len());
        }
    }
    assert_eq!(complete(9, &[0], &[1, 2]), (vec![0], 0, 0, 0));
    assert_eq!(complete(8, &[0], &[1, 2]), (vec![0, 1], 1, 0, 0));
    assert_eq!(complete(9, &[0], &[1]), (vec![0, 1], 1, 0, 1));
}
