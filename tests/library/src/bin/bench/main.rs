//! Times of the static library's calls beside plain Rust with the same
//! algorithms, in one run, and their ratio. Follows document 01, sections "Points
//! and spaces", "Primes", "The written form" and "The printed report", and
//! document 02. The address at which a tight loop happens to stand changes its time
//! by up to a third, on either side, so a ratio says no more than that.

mod comparisons;
mod completions;
mod forms;
mod indices;
mod measure;
mod plain;
mod readings;

use glospruma::MAX_POINTS;
use library::{Affine, Analysis, Completion, Listed};
use measure::compare;
use reference::generate::{self, Generator};
use reference::table::Table;
use std::fmt::Debug;
use std::hint::black_box;

const VARIABLES: usize = 12;

/// The highest bit of a point, x1.
const X1: u16 = 1 << (VARIABLES - 1);

/// The highest point.
const LAST: u16 = 2 * X1 - 1;

/// Random tables of a case: so many that the processor can't learn their
/// branches by heart from one turn to the next.
const RANDOM_TABLES: usize = 16;

/// Random tables with so many of a hundred points on, and so many free.
fn random_tables(on_percent: usize, free_percent: usize) -> Vec<Table> {
    let mut generator = Generator::new(1);
    let tables = 0..RANDOM_TABLES;
    tables
        .map(|_| generate::random_table(&mut generator, VARIABLES, on_percent, free_percent))
        .collect()
}

/// Complete functions closed under a random space of this dimension.
fn closed_tables(dimension: usize) -> Vec<Table> {
    let mut generator = Generator::new(1);
    let tables = 0..RANDOM_TABLES;
    tables
        .map(|_| generate::closed_table(&mut generator, VARIABLES, dimension, 50))
        .collect()
}

/// Tables with about half of those points on that have an odd number of set bits.
fn odd_tables() -> Vec<Table> {
    let is_odd = |point: &u16| point.count_ones() % 2 == 1;
    let tables = random_tables(50, 0).into_iter();
    tables
        .map(|(n, on, _)| (n, on.into_iter().filter(is_odd).collect(), Vec::new()))
        .collect()
}

/// Times the linear space call on the on points of each table.
fn linear_space(title: &str, tables: &[Table]) {
    for (n, on, _) in tables {
        assert_eq!(library::linear_space(*n, on), plain::linear_space(*n, on));
    }
    compare(
        &format!("linear space, {title}"),
        tables,
        |(n, on, _)| library::linear_space(black_box(*n), black_box(on)),
        |(n, on, _)| plain::linear_space(black_box(*n), black_box(on)),
    );
}

/// Whether a point is on.
type IsOn = fn(u16) -> bool;

/// Times the linear space call on functions of twelve variables.
fn linear_spaces() {
    linear_space("n 12, random", &random_tables(50, 0));
    let cases: [(&str, IsOn); 7] = [
        ("on 4095 alone", |point| point == LAST),
        ("x1", |point| point >= X1),
        ("x1 but for 4095", |point| point >= X1 && point != LAST),
        ("x1 to x6 all set", |point| point >> 6 == 63),
        ("parity", |point| point.count_ones() % 2 == 1),
        ("none on", |_| false),
        ("all on", |_| true),
    ];
    for (title, is_on) in cases {
        linear_space(
            &format!("n 12, {title}"),
            &[generate::table_of(VARIABLES, is_on)],
        );
    }
}

/// A call that takes a table and writes points.
type PointCall<T> = fn(usize, &[u16], &[u16], &mut [u16]) -> T;

/// Makes a call that takes a table and writes points, hidden from the optimizer.
fn make<T>(call: PointCall<T>, (n, on, free): &Table, room: &mut [u16]) -> T {
    call(
        black_box(*n),
        black_box(on),
        black_box(free),
        black_box(room),
    )
}

/// Times a call that takes a table and writes points, after a comparison of what
/// both sides return and write.
fn point_call<T: PartialEq + Debug>(
    title: &str,
    tables: &[Table],
    library_call: PointCall<T>,
    plain_call: PointCall<T>,
) {
    let (mut library_room, mut plain_room) = (vec![0; MAX_POINTS], vec![0; MAX_POINTS]);
    for table in tables {
        let answer = make(library_call, table, &mut library_room);
        assert_eq!(answer, make(plain_call, table, &mut plain_room));
        assert_eq!(library_room, plain_room);
    }
    compare(
        title,
        tables,
        |table| make(library_call, table, &mut library_room),
        |table| make(plain_call, table, &mut plain_room),
    );
}

/// The listing call.
type ListingCall = fn(usize, &[u16], &[u16], u64, u64, &mut [u8]) -> Listed;

/// Bytes for more records than any table of six variables has primes here.
const RECORDS_LENGTH: usize = 65_536;

/// Makes a listing call, hidden from the optimizer.
fn list(call: ListingCall, table: &Table, place: u64, allowance: u64, room: &mut [u8]) -> Listed {
    let (n, on, free) = black_box(table);
    call(*n, on, free, place, allowance, black_box(room))
}

/// Times listing calls at each place beside a call in plain Rust, after a comparison
/// of what both sides return and write.
fn listing(title: &str, plain_call: ListingCall, table: &Table, places: &[u64], allowance: u64) {
    let (mut library_room, mut plain_room) = (vec![0; RECORDS_LENGTH], vec![0; RECORDS_LENGTH]);
    for &place in places {
        let answer = list(
            library::list_primes,
            table,
            place,
            allowance,
            &mut library_room,
        );
        let plain_answer = list(plain_call, table, place, allowance, &mut plain_room);
        assert_eq!(answer, plain_answer);
        assert_eq!(library_room, plain_room);
    }
    compare(
        &format!("list primes, {title}"),
        places,
        |&place| {
            list(
                library::list_primes,
                table,
                place,
                allowance,
                &mut library_room,
            )
        },
        |&place| list(plain_call, table, place, allowance, &mut plain_room),
    );
}

/// Times listings of six variables: whole in one call, and of one candidate to a
/// call.
fn listings() {
    let random = generate::random_table(&mut Generator::new(1), 6, 40, 20);
    let one_on = (6, vec![0], (1..64).collect());
    for (title, table) in [
        ("n 6, random", &random),
        ("n 6, parity", &generate::weight_bit(6, 0)),
        ("n 6, all on", &generate::threshold(6, 0)),
        ("n 6, all free but one", &one_on),
    ] {
        listing(title, plain::list_primes, table, &[0], u64::MAX);
    }
    let places: Vec<u64> = (0..26_387).collect();
    for (title, plain_call) in [
        (
            "n 6, random, allowance 1",
            plain::list_primes as ListingCall,
        ),
        (
            "n 6, random, allowance 1, by bases",
            plain::list_primes_by_bases,
        ),
    ] {
        listing(title, plain_call, &random, &places, 1);
    }
}

/// Times the call for the smallest affine space, of full dimension and of one less.
fn affine_spaces() {
    for (title, tables) in [
        ("affine, n 12, random", random_tables(50, 0)),
        ("affine, n 12, random, dimension 11", odd_tables()),
    ] {
        point_call::<Affine>(
            title,
            &tables,
            |n, on, _, room| library::affine(n, on, room),
            |n, on, _, room| plain::affine(n, on, room),
        );
    }
}

fn main() {
    let with_free = random_tables(40, 20);
    measure::print_head();
    linear_spaces();
    point_call::<Analysis>(
        "analyse, n 12, random with free points",
        &with_free,
        library::analyse,
        plain::analyse,
    );
    for dimension in [1, 3] {
        point_call::<Analysis>(
            &format!("analyse, n 12, random of degree {dimension}"),
            &closed_tables(dimension),
            library::analyse,
            plain::analyse,
        );
    }
    affine_spaces();
    point_call::<Completion>(
        "complete, n 12, random with free points",
        &with_free,
        library::complete,
        plain::complete,
    );
    completions::completions();
    listings();
    forms::forms();
    comparisons::comparisons();
    readings::readings();
    indices::indices();
}
