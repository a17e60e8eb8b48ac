//! Times of completing tables of eight variables with many free points: the library
//! beside plain Rust with the same search, and beside source 003's growth of a space,
//! which may find a smaller one. Follows document 02, No. 4.

use crate::measure::compare;
use crate::plain;
use crate::{make, point_call};
use glospruma::MAX_POINTS;
use reference::generate::{self, Generator};
use reference::table::Table;

/// Most variables of a table that is completed by its closure set.
const VARIABLES: usize = 8;

/// Tables of each kind, so many that a share of them says something.
const TABLES: usize = 200;

/// A maker of tables.
type Maker = fn(&mut Generator) -> Table;

/// One on point, and each other point free with so many of a hundred chances.
fn one_on(generator: &mut Generator, free_percent: usize) -> Table {
    let points = 1..1u16 << VARIABLES;
    let free = points.filter(|_| generator.chance(free_percent));
    (VARIABLES, vec![0], free.collect())
}

/// Kinds of random tables.
const KINDS: [(&str, Maker); 7] = [
    ("40% on, 20% free", |generator| {
        generate::random_table(generator, VARIABLES, 40, 20)
    }),
    ("10% on, 80% free", |generator| {
        generate::random_table(generator, VARIABLES, 10, 80)
    }),
    ("2% on, 90% free", |generator| {
        generate::random_table(generator, VARIABLES, 2, 90)
    }),
    ("one on, 50% free", |generator| one_on(generator, 50)),
    ("one on, 75% free", |generator| one_on(generator, 75)),
    ("one on, 90% free", |generator| one_on(generator, 90)),
    ("of degree 3, 50% free", |generator| {
        let function = generate::closed_table(generator, VARIABLES, 3, 50);
        generate::with_free_points(generator, &function, 50)
    }),
];

/// On how many tables growth finds a smaller space, and the sums of the degrees, the
/// exact ones first.
fn smaller(tables: &[Table]) -> (usize, [usize; 2]) {
    let mut room = vec![0; MAX_POINTS];
    let (mut smaller, mut sums) = (0, [0; 2]);
    for table in tables {
        let exact = make(library::complete, table, &mut room).degree;
        let grown = make(plain::complete_by_growth, table, &mut room).degree;
        assert!(grown <= exact, "{table:?}");
        smaller += usize::from(grown < exact);
        sums = [sums[0] + exact, sums[1] + grown];
    }
    (smaller, sums)
}

/// Times both comparisons on some tables, and prints how growth fares.
fn completion(title: &str, tables: &[Table]) {
    let title = format!("complete, n 8, {title}");
    point_call(&title, tables, library::complete, plain::complete);
    let (mut library_room, mut plain_room) = (vec![0; MAX_POINTS], vec![0; MAX_POINTS]);
    compare(
        "  beside growth of a space (003)",
        tables,
        |table| make(library::complete, table, &mut library_room),
        |table| make(plain::complete_by_growth, table, &mut plain_room),
    );
    let count = tables.len();
    let (smaller, sums) = smaller(tables);
    let [exact, grown] = sums.map(|sum| sum as f64 / count as f64);
    println!("  growth: smaller space on {smaller} of {count}, degree {grown:.2} for {exact:.2}");
}

/// Times completions of eight variables: random tables, and the closure set that
/// takes the search longest, all vectors outside the space of the first four
/// variables.
pub fn completions() {
    for (title, maker) in KINDS {
        let mut generator = Generator::new(3);
        let tables: Vec<Table> = (0..TABLES).map(|_| maker(&mut generator)).collect();
        completion(title, &tables);
    }
    let set = generate::outside_first_variables(VARIABLES, 4);
    let worst = generate::table_with_closure_set(VARIABLES, 0, &set);
    completion("worst closure set", &[worst]);
}
