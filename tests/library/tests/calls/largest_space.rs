//! What document 02, No. 4, says of completed functions, checked on the answers of
//! the calls themselves and not by the reference's completion: the space lies inside
//! the closure set, no space inside it is larger or comes before, the completed
//! function is every on point XOR every vector of it, its linear space is that space
//! and no more, and the degree is not below k0 and k1. From nine variables: the rule
//! of document 01.

use crate::lent_calls;
use crate::tables;
use crate::tally::assert_counts;
use glospruma::MAX_POINTS;
use library::settings::some;
use reference::completion::{self, MOST_CLOSURE_VARIABLES};
use reference::generate;
use reference::primes::{self, MOST_LISTED};
use reference::space;
use reference::table::Table;

/// Answers of the calls on one table.
struct Answers {
    points: Vec<u16>,
    basis: Vec<u16>,
    k0: usize,
    k1: usize,
}

/// The basis that the linear space call finds for these on points.
fn linear_space(n: usize, on: &[u16]) -> Vec<u16> {
    let found = lent_calls::linear_space(n, on);
    assert_eq!(found.refusal, 0);
    found.basis.vectors[..found.basis.len].to_vec()
}

/// Completes and analyses an accepted table; the calls must agree.
fn answers((n, on, free): &Table) -> Answers {
    let mut room = vec![0; MAX_POINTS];
    let completed = lent_calls::complete(*n, on, free, &mut room);
    let points = room[..completed.count].to_vec();
    let analysed = lent_calls::analyse(*n, on, free, &mut room);
    assert_eq!((completed.refusal, analysed.refusal), (0, 0));
    assert_eq!(completed.degree, analysed.degree);
    assert_eq!(analysed.basis.len, analysed.degree);
    Answers {
        points,
        basis: analysed.basis.vectors[..analysed.basis.len].to_vec(),
        k0: completed.k0,
        k1: completed.k1,
    }
}

/// Up to six variables: of all spaces, in their order, none before this one lies
/// inside the set.
fn assert_first(n: usize, set: &[u16], basis: &[u16]) {
    let inside = primes::set_of(set);
    let spaces = primes::candidates(n).iter().filter(|cube| cube.least == 0);
    let mut before = spaces.take_while(|cube| cube.basis != basis);
    assert!(before.all(|cube| cube.members & !inside != 0));
}

/// Checks the completion of a table; whether its degree is above k0 and k1.
fn check(table: &Table) -> bool {
    let (n, on, free) = table;
    let Answers {
        points,
        basis,
        k0,
        k1,
    } = answers(table);
    let all = space::union(on, free);
    assert_eq!(linear_space(*n, &points), basis, "{table:?}");
    assert_eq!(linear_space(*n, on).len(), k0);
    assert_eq!(linear_space(*n, &all).len(), k1);
    assert!(basis.len() >= k0.max(k1), "{table:?}");
    if *n > MOST_CLOSURE_VARIABLES {
        assert_eq!(&points, if k1 > k0 { &all } else { on }, "{table:?}");
        return false;
    }
    let closure = completion::closure_set(*n, on, free);
    let has = space::flags(*n, &closure);
    assert!(primes::is_reduced(&basis), "{table:?}");
    assert!(space::span(&basis)
        .iter()
        .all(|&vector| has[usize::from(vector)]));
    assert_eq!(points, completion::spread(on, &basis), "{table:?}");
    if *n <= MOST_LISTED {
        assert_first(*n, &closure, &basis);
    }
    basis.len() > k0.max(k1)
}

/// Checks tables; so many at least must have a degree above k0 and k1.
fn check_all(title: &str, tables: impl Iterator<Item = Table>, least: usize) {
    let (mut count, mut above) = (0, 0);
    for table in tables {
        above += usize::from(check(&table));
        count += 1;
    }
    println!("{title}: {above} of {count} with a degree above k0 and k1");
    assert_counts(title, &[above], least);
}

/// 12 tables of two variables, and 3,052 of three, as the reference counts too.
#[test]
fn every_small_table() {
    check_all("every small table", tables::small_tables(), 12 + 3052);
}

#[test]
fn random_and_known_tables() {
    let tables = tables::random_tables(250).chain(tables::known_tables());
    check_all("random and known tables", tables, 200);
}

#[test]
fn many_free_points() {
    let tables = tables::closure_tables(251).chain(tables::free_tables(252));
    check_all("many free points", tables, 300);
}

/// Every set of vectors of up to three variables that holds 0, and some of four, as
/// the closure set of each point.
#[test]
fn every_closure_set() {
    let sets = (1..=4).flat_map(|n| (1..1u64 << (1 << n)).step_by(2).map(move |set| (n, set)));
    let some_sets = sets.filter(|&(n, set)| n < 4 || set % 61 == 0);
    let tables = some(some_sets).flat_map(|(n, set)| {
        let set = primes::points_of(set);
        (0..1 << n).map(move |point| generate::table_with_closure_set(n, point, &set))
    });
    check_all("every closure set", tables, 500);
}

/// Closure sets whose largest space is known: all vectors, 0 alone, and all outside a
/// space of the first variables, among them the set that takes a search longest. The
/// widest come first, so that every share of the inputs has them.
#[test]
fn known_spaces() {
    for n in some((1..=MOST_CLOSURE_VARIABLES).rev()) {
        let last = 1u16 << n >> 1;
        let units: Vec<u16> = (0..n).map(|place| 1 << place).collect();
        for point in [0, last, 2 * last - 1] {
            let basis_of = |set: &[u16]| {
                let table = generate::table_with_closure_set(n, point, set);
                check(&table);
                answers(&table).basis
            };
            assert_eq!(basis_of(&(0..2 * last).collect::<Vec<u16>>()), units);
            assert_eq!(basis_of(&[0]), []);
            for kept in 0..=n {
                let set = generate::outside_first_variables(n, kept);
                assert_eq!(basis_of(&set), units[..kept]);
            }
        }
    }
}

/// The same lists as tables of eight and of nine variables: the closure set counts
/// for eight alone.
#[test]
fn eight_and_nine_variables() {
    let first = |n| answers(&(n, vec![0], vec![1, 2]));
    let (eight, nine) = (first(8), first(9));
    assert_eq!((eight.points, eight.basis), (vec![0, 1], vec![1]));
    assert_eq!((nine.points, nine.basis), (vec![0], vec![]));
    for answers in [first(8), first(9)] {
        assert_eq!((answers.k0, answers.k1), (0, 0));
    }
    let half: Vec<u16> = (0..256).collect();
    let nine = answers(&(9, half.clone(), (256..511).collect()));
    assert_eq!((nine.points, nine.basis.len()), (half.clone(), 8));
    let eight = answers(&(8, half[..128].to_vec(), half[128..255].to_vec()));
    assert_eq!((eight.points, eight.basis.len()), (half[..128].to_vec(), 7));
}
