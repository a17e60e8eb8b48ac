//! Tables that every call on lists is compared on: all small ones, random ones
//! and those of known functions; and tables with many free points for those that
//! complete a table. Follows document 01, section "Points and spaces", and document
//! 02, No. 4. The same seed gives the same tables; of each list the share is made
//! that the environment asks for.

use glospruma::MAX_VARIABLES;
use library::settings::{some, taken};
use reference::completion::MOST_CLOSURE_VARIABLES;
use reference::generate::{self, Generator};
use reference::space;
use reference::table::Table;
use std::ops::RangeInclusive;

/// The table of n variables whose points are off, on or free by the digits of a
/// number to base 3, that of point 0 lowest.
fn numbered_table(n: usize, number: usize) -> Table {
    let (mut on, mut free) = (Vec::new(), Vec::new());
    let mut rest = number;
    for point in 0..1u16 << n {
        match rest % 3 {
            0 => {}
            1 => on.push(point),
            _ => free.push(point),
        }
        rest /= 3;
    }
    (n, on, free)
}

/// Every table of n variables: 9, 81 and 6,561 of them for n from 1 to 3.
pub fn every_table(n: usize) -> impl Iterator<Item = Table> {
    let numbers = some(0..3usize.pow(1 << n));
    numbers.map(move |number| numbered_table(n, number))
}

/// Every table of 1, 2 and 3 variables.
pub fn small_tables() -> impl Iterator<Item = Table> {
    (1..=3).flat_map(every_table)
}

/// How many tables of 1, 2 and 3 variables there are.
pub fn small_count() -> usize {
    taken(9) + taken(81) + taken(6561)
}

/// The on points of every function of 4 variables: 65,536 of them.
pub fn functions_of_four() -> impl Iterator<Item = Vec<u16>> {
    let sets = some(0..1u32 << 16);
    sets.map(|set| (0..16).filter(|point| set >> point & 1 == 1).collect())
}

/// A maker of random tables of n variables.
type Maker = fn(&mut Generator, usize) -> Table;

/// Any density of on points; no free point.
fn any_density(generator: &mut Generator, n: usize) -> Table {
    let on_percent = generator.below(101);
    generate::random_table(generator, n, on_percent, 0)
}

/// Any densities of on and of free points.
fn any_densities(generator: &mut Generator, n: usize) -> Table {
    let on_percent = generator.below(101);
    let free_percent = generator.below(101 - on_percent);
    generate::random_table(generator, n, on_percent, free_percent)
}

/// At most eight points, each on or free.
fn few_points(generator: &mut Generator, n: usize) -> Table {
    let mut points: Vec<u16> = (0..generator.below(9))
        .map(|_| generator.below(1 << n) as u16)
        .collect();
    points.sort_unstable();
    points.dedup();
    let (on, free) = points.into_iter().partition(|_| generator.chance(70));
    (n, on, free)
}

/// Some on points of a function are made free: with all of them on it is the
/// function again.
fn with_free_on(generator: &mut Generator, (n, all, _): &Table) -> Table {
    let percent = generator.below(101);
    let (free, on) = all.iter().copied().partition(|_| generator.chance(percent));
    (*n, on, free)
}

/// Some off points of a function are made free: with all of them off it is the
/// function again.
fn with_free_off(generator: &mut Generator, (n, on, _): &Table) -> Table {
    let percent = generator.below(101);
    let flags = space::flags(*n, on);
    let off = (0..1u16 << n).filter(|&point| !flags[usize::from(point)]);
    let free = off.filter(|_| generator.chance(percent)).collect();
    (*n, on.clone(), free)
}

/// A function built from a random space and a random restriction.
fn closed(generator: &mut Generator, n: usize) -> Table {
    let dimension = generator.below(n + 1);
    let on_percent = generator.below(101);
    generate::closed_table(generator, n, dimension, on_percent)
}

/// As before, and some of its on points are made free: all on has a space.
fn closed_with_free_on(generator: &mut Generator, n: usize) -> Table {
    let table = closed(generator, n);
    with_free_on(generator, &table)
}

/// As before, and some of its off points are made free: all off has a space.
fn closed_with_free_off(generator: &mut Generator, n: usize) -> Table {
    let table = closed(generator, n);
    with_free_off(generator, &table)
}

/// As before, and some points of both kinds are made free.
fn closed_with_free_points(generator: &mut Generator, n: usize) -> Table {
    let table = closed(generator, n);
    let percent = generator.below(20);
    generate::with_free_points(generator, &table, percent)
}

/// Points of a random affine space are on; points anywhere else may be free.
fn inside_affine(generator: &mut Generator, n: usize) -> Table {
    let dimension = generator.below(n + 1);
    let directions = space::span(&generate::random_space(generator, n, dimension));
    let origin = generator.below(1 << n) as u16;
    let (on_percent, free_percent) = (generator.below(101), generator.below(30));
    let members: Vec<u16> = directions.iter().map(|vector| vector ^ origin).collect();
    let flags = space::flags(n, &members);
    let (mut on, mut free) = (Vec::new(), Vec::new());
    for point in 0..1u16 << n {
        if flags[usize::from(point)] && generator.chance(on_percent) {
            on.push(point);
        } else if generator.chance(free_percent) {
            free.push(point);
        }
    }
    (n, on, free)
}

const MAKERS: [Maker; 8] = [
    any_density,
    any_densities,
    few_points,
    closed,
    closed_with_free_on,
    closed_with_free_off,
    closed_with_free_points,
    inside_affine,
];

/// Rounds of random tables for each number of variables and each maker.
const ROUNDS: usize = 32;

/// Random tables of every number of variables.
pub fn random_tables(seed: u64) -> impl Iterator<Item = Table> {
    random_tables_of(1..=MAX_VARIABLES, seed)
}

/// Random tables of some numbers of variables, 256 for each.
pub fn random_tables_of(widths: RangeInclusive<usize>, seed: u64) -> impl Iterator<Item = Table> {
    let mut generator = Generator::new(seed);
    let widths = (0..ROUNDS).flat_map(move |_| widths.clone());
    let kinds = widths.flat_map(|n| MAKERS.map(|maker| (n, maker)));
    some(kinds).map(move |(n, maker)| maker(&mut generator, n))
}

/// Variables of the tables with many free points: all that are completed by their
/// closure set, and one more.
const CLOSURE_WIDTHS: RangeInclusive<usize> = 1..=MOST_CLOSURE_VARIABLES + 1;

/// Tables with one on point, anywhere, and closure sets of every kind.
pub fn closure_tables(seed: u64) -> impl Iterator<Item = Table> {
    let mut generator = Generator::new(seed);
    let mut tables = Vec::new();
    for n in CLOSURE_WIDTHS {
        for set in generate::closure_sets(&mut generator, n) {
            let point = generator.below(1 << n) as u16;
            tables.push(generate::table_with_closure_set(n, point, &set));
        }
    }
    some(tables)
}

/// Tables with few on points and many free ones, and functions with a space, more
/// than half of whose points are made free.
pub fn free_tables(seed: u64) -> impl Iterator<Item = Table> {
    let mut generator = Generator::new(seed);
    let widths = (0..ROUNDS).flat_map(|_| CLOSURE_WIDTHS);
    some(widths).flat_map(move |n| {
        let on_percent = 1 + generator.below(20);
        let free_percent = 50 + generator.below(51 - on_percent);
        let random = generate::random_table(&mut generator, n, on_percent, free_percent);
        let dimension = generator.below(n);
        let function = generate::closed_table(&mut generator, n, dimension, 10);
        let half_free = generate::with_free_points(&mut generator, &function, 55);
        [random, half_free]
    })
}

/// Counters of set variables, thresholds, parities, constants and single points
/// of n variables.
fn symmetric_tables(n: usize) -> Vec<Table> {
    let variables = n as u32;
    let last = ((1u32 << n) - 1) as u16;
    let mut tables = vec![
        generate::table_of(n, |point| point == 0),
        generate::table_of(n, |point| point == last),
        generate::table_of(n, |point| point != 0),
        generate::table_of(n, |point| point != last),
        generate::parity(n, last, 0),
        generate::parity(n, last / 3 + 1, 1),
        generate::weight_between(n, variables / 3, 2 * variables / 3),
    ];
    tables.extend((0..=variables + 1).map(|low| generate::threshold(n, low)));
    tables.extend((0..4).map(|bit| generate::weight_bit(n, bit)));
    tables
}

/// Known functions, most of them of every number of variables.
fn known_functions() -> Vec<Table> {
    let mut tables: Vec<Table> = (1..=MAX_VARIABLES).flat_map(symmetric_tables).collect();
    for width in 1..=6 {
        tables.extend((0..=width).map(|output| generate::adder_output(width, output)));
    }
    tables.push(generate::life());
    tables
}

/// Tables of known functions, each also with a tenth and with half of its points
/// made free.
pub fn known_tables() -> impl Iterator<Item = Table> {
    known_tables_of(1..=MAX_VARIABLES)
}

/// As before, for some numbers of variables.
pub fn known_tables_of(widths: RangeInclusive<usize>) -> impl Iterator<Item = Table> {
    let mut generator = Generator::new(1);
    let known = known_functions().into_iter();
    let chosen = known.filter(move |table| widths.contains(&table.0));
    some(chosen).flat_map(move |table| {
        let few = generate::with_free_points(&mut generator, &table, 10);
        let many = generate::with_free_points(&mut generator, &table, 50);
        [table, few, many]
    })
}

/// A function, then with some of its on points and with some of its off points
/// made free; the completed function of each keeps no more variables.
fn with_each_free(generator: &mut Generator, table: Table) -> [Table; 3] {
    let on = with_free_on(generator, &table);
    let off = with_free_off(generator, &table);
    [table, on, off]
}

/// Functions of every number of variables built from a random space and a random
/// restriction of each number of variables up to the given one, with and without
/// free points.
pub fn kept_tables(seed: u64, rounds: usize, most_kept: usize) -> impl Iterator<Item = Table> {
    let mut generator = Generator::new(seed);
    let widths = (0..rounds).flat_map(|_| 1..=MAX_VARIABLES);
    let kinds = widths.flat_map(move |n| (0..=n.min(most_kept)).map(move |kept| (n, kept)));
    some(kinds).flat_map(move |(n, kept)| {
        let on_percent = generator.below(101);
        let table = generate::closed_table(&mut generator, n, n - kept, on_percent);
        with_each_free(&mut generator, table)
    })
}

/// Functions whose restriction is a known function of up to seven variables, as
/// wide as it and wider, with and without free points.
pub fn lifted_tables(seed: u64) -> impl Iterator<Item = Table> {
    let mut generator = Generator::new(seed);
    let known = known_functions().into_iter();
    let narrow = known.filter(|&(kept, _, _)| kept <= 7);
    let kinds = narrow.flat_map(|(kept, on, _)| {
        let flags = space::flags(kept, &on);
        [kept, 10, MAX_VARIABLES].map(|n| (n, kept, flags.clone()))
    });
    some(kinds).flat_map(move |(n, kept, flags)| {
        let basis = generate::random_space(&mut generator, n, n - kept);
        let table = generate::lifted(n, &basis, &flags);
        with_each_free(&mut generator, table)
    })
}
