//! A fixed generator of numbers and makers of test inputs: tables, stored bytes
//! whole and damaged, and forms. Follows document 01, sections "Points and
//! spaces" and "The written form"; the same seed gives the same inputs.

use crate::form::{self, Factor, Form, Product};
use crate::space;
use crate::table::{Table, MOST_VARIABLES};
use crate::walk;

/// A generator of 64-bit numbers (the splitmix64 rule).
#[derive(Clone, Debug)]
pub struct Generator {
    state: u64,
}

impl Generator {
    /// A generator that starts from a seed.
    pub fn new(seed: u64) -> Generator {
        Generator { state: seed }
    }

    /// The next number.
    pub fn next_number(&mut self) -> u64 {
        self.state = self.state.wrapping_add(0x9E37_79B9_7F4A_7C15);
        let mut mixed = self.state;
        mixed = (mixed ^ mixed >> 30).wrapping_mul(0xBF58_476D_1CE4_E5B9);
        mixed = (mixed ^ mixed >> 27).wrapping_mul(0x94D0_49BB_1331_11EB);
        mixed ^ mixed >> 31
    }

    /// A number below a bound that isn't 0.
    pub fn below(&mut self, bound: usize) -> usize {
        (self.next_number() % bound as u64) as usize
    }

    /// True in about so many cases of a hundred.
    pub fn chance(&mut self, percent: usize) -> bool {
        self.below(100) < percent
    }
}

/// The complete function of n variables with the points that pass a test.
pub fn table_of(n: usize, is_on: impl Fn(u16) -> bool) -> Table {
    let on = (0..1u16 << n).filter(|&point| is_on(point)).collect();
    (n, on, Vec::new())
}

/// A random table: about so many of a hundred points on, and so many free.
pub fn random_table(
    generator: &mut Generator,
    n: usize,
    on_percent: usize,
    free_percent: usize,
) -> Table {
    let (mut on, mut free) = (Vec::new(), Vec::new());
    for point in 0..1u16 << n {
        let draw = generator.below(100);
        if draw < on_percent {
            on.push(point);
        } else if draw < on_percent + free_percent {
            free.push(point);
        }
    }
    (n, on, free)
}

/// A table with about so many of a hundred points, on or off, made free.
pub fn with_free_points(generator: &mut Generator, table: &Table, percent: usize) -> Table {
    let (n, on, _) = table;
    let flags = space::flags(*n, on);
    let (mut kept, mut free) = (Vec::new(), Vec::new());
    for point in 0..1u16 << n {
        if generator.chance(percent) {
            free.push(point);
        } else if flags[usize::from(point)] {
            kept.push(point);
        }
    }
    (*n, kept, free)
}

/// The points where the variables of a mask have the given parity.
pub fn parity(n: usize, mask: u16, constant: u8) -> Table {
    table_of(n, |point| form::parity(mask, point) == constant)
}

/// The points with from `low` to `high` variables set.
pub fn weight_between(n: usize, low: u32, high: u32) -> Table {
    table_of(n, |point| (low..=high).contains(&point.count_ones()))
}

/// The points with at least `low` variables set.
pub fn threshold(n: usize, low: u32) -> Table {
    weight_between(n, low, n as u32)
}

/// One output of the counter of set variables: bit 0 is the lowest.
pub fn weight_bit(n: usize, bit: u32) -> Table {
    table_of(n, |point| point.count_ones() >> bit & 1 == 1)
}

/// One output of the adder of two numbers of `width` bits, the first in the
/// high half of the point; output 0 is the lowest, output `width` the carry.
pub fn adder_output(width: usize, output: usize) -> Table {
    let low_half = (1u16 << width) - 1;
    let sum = move |point: u16| (point >> width) + (point & low_half);
    table_of(2 * width, |point| sum(point) >> output & 1 == 1)
}

/// The next state of the centre cell, x5, of nine: on with three neighbours, or
/// with two when it is on itself.
pub fn life() -> Table {
    let centre = 1u16 << 4;
    table_of(9, |point| {
        let neighbours = (point & !centre).count_ones();
        neighbours == 3 || neighbours == 2 && point & centre != 0
    })
}

/// The reduced basis of a random space of the given dimension.
pub fn random_space(generator: &mut Generator, n: usize, dimension: usize) -> Vec<u16> {
    let mut vectors = Vec::new();
    while space::span(&vectors).len() < 1 << dimension {
        vectors.push(generator.below(1 << n) as u16);
    }
    space::reduced_basis(&space::span(&vectors))
}

/// The table whose only on point is this one and whose closure set is a given set
/// that holds 0: the point XOR each of its vectors is on or free.
pub fn table_with_closure_set(n: usize, point: u16, set: &[u16]) -> Table {
    let others = set.iter().filter(|&&vector| vector != 0);
    let mut free: Vec<u16> = others.map(|vector| vector ^ point).collect();
    free.sort_unstable();
    (n, vec![point], free)
}

/// The vectors of n variables that pass a test, and 0.
fn vectors_of(n: usize, mut is_in: impl FnMut(u16) -> bool) -> Vec<u16> {
    let vectors = 0..1u16 << n;
    vectors
        .filter(|&vector| vector == 0 || is_in(vector))
        .collect()
}

/// 0 and the vectors of n variables outside the space of a basis.
pub fn outside_space(n: usize, basis: &[u16]) -> Vec<u16> {
    let inside = space::flags(n, &space::span(basis));
    vectors_of(n, |vector| !inside[usize::from(vector)])
}

/// 0 and the vectors of n variables with one of the last `kept` variables set: all
/// outside the space of the other variables.
pub fn outside_first_variables(n: usize, kept: usize) -> Vec<u16> {
    let first: Vec<u16> = (kept..n).map(|place| 1 << place).collect();
    outside_space(n, &first)
}

/// The vectors of some random spaces together.
fn union_of_spaces(generator: &mut Generator, n: usize, count: usize) -> Vec<u16> {
    let mut union = vec![0];
    for _ in 0..count {
        let dimension = generator.below(n);
        let space = space::span(&random_space(generator, n, dimension));
        union = space::union(&union, &space);
    }
    union
}

/// Sets of vectors of n variables that hold 0, each of which is the closure set of
/// some table: everything and 0 alone, what lies outside spaces of each dimension,
/// unions of spaces, all but a few vectors, vectors with few and with many bits, and
/// vectors at random.
pub fn closure_sets(generator: &mut Generator, n: usize) -> Vec<Vec<u16>> {
    let mut sets = vec![(0..1u16 << n).collect(), vec![0]];
    for dimension in 0..=n {
        let basis = random_space(generator, n, dimension);
        sets.push(outside_space(n, &basis));
        sets.push(outside_first_variables(n, dimension));
        let few = dimension as u32;
        sets.push(vectors_of(n, |vector| vector.count_ones() <= few));
        sets.push(vectors_of(n, |vector| vector.count_ones() >= few));
    }
    for count in [2, 3, 8, 32] {
        sets.push(union_of_spaces(generator, n, count));
        let missing: Vec<u16> = (0..count).map(|_| generator.below(1 << n) as u16).collect();
        sets.push(vectors_of(n, |vector| !missing.contains(&vector)));
    }
    for percent in [10, 25, 50, 75, 88, 93, 97] {
        sets.push(vectors_of(n, |_| generator.chance(percent)));
    }
    sets
}

/// The function of n variables whose value at a point is that of a restriction,
/// one flag to a point, at the values of the equations of a reduced basis.
pub fn lifted(n: usize, basis: &[u16], restriction: &[bool]) -> Table {
    let equations = space::equations(n, basis);
    table_of(n, |point| {
        let values = equations.iter().map(|&mask| form::parity(mask, point));
        let image = values.fold(0, |number, value| 2 * number + usize::from(value));
        restriction[image]
    })
}

/// A complete function closed under a random space of the given dimension: its
/// restriction is random, about so many of a hundred points on. Its degree may
/// be above that dimension.
pub fn closed_table(
    generator: &mut Generator,
    n: usize,
    dimension: usize,
    on_percent: usize,
) -> Table {
    let basis = random_space(generator, n, dimension);
    let size = 1 << (n - dimension);
    let restriction: Vec<bool> = (0..size).map(|_| generator.chance(on_percent)).collect();
    lifted(n, &basis, &restriction)
}

/// A random canonical product of n variables.
pub fn random_product(generator: &mut Generator, n: usize) -> Product {
    let lowest_bits = generator.below(1 << n) as u16;
    let mut product = Vec::new();
    for place in (0..n).rev() {
        let bit = 1u16 << place;
        if lowest_bits & bit != 0 {
            let above = generator.below(1 << n) as u16 & !(2 * bit - 1) & !lowest_bits;
            let constant = generator.below(2) as u8;
            let mask = bit | above;
            product.push(Factor { constant, mask });
        }
    }
    product
}

/// A random form of n variables with so many products, at most 64.
pub fn random_form(generator: &mut Generator, n: usize, products: usize) -> Form {
    let products = (0..products).map(|_| random_product(generator, n));
    Form {
        variables: n,
        products: products.collect(),
    }
}

/// A byte that means something at many places, or any other.
pub fn telling_byte(generator: &mut Generator) -> u8 {
    let kinds = [
        walk::KIND_VARIABLES,
        walk::KIND_PRODUCT,
        walk::KIND_FACTOR,
        walk::KIND_END,
        walk::KIND_ON,
        walk::KIND_FREE,
    ];
    match generator.below(4) {
        0 => kinds[generator.below(kinds.len())],
        1 => generator.below(MOST_VARIABLES + 2) as u8,
        2 => 1 << generator.below(8),
        _ => generator.below(256) as u8,
    }
}

/// The bytes with another one at a place.
pub fn with_byte(bytes: &[u8], place: usize, byte: u8) -> Vec<u8> {
    let mut changed = bytes.to_vec();
    changed[place] = byte;
    changed
}

/// The bytes with each byte in turn changed by XOR with a number that isn't 0.
pub fn changed_bytes(bytes: &[u8], change: u8) -> impl Iterator<Item = Vec<u8>> + '_ {
    (0..bytes.len()).map(move |place| with_byte(bytes, place, bytes[place] ^ change))
}

/// The bytes with each byte in turn changed to each other value.
pub fn every_changed_byte(bytes: &[u8]) -> impl Iterator<Item = Vec<u8>> + '_ {
    (1..=255).flat_map(move |change| changed_bytes(bytes, change))
}

/// Every cut of the bytes: all proper beginnings, the empty one too.
pub fn cuts(bytes: &[u8]) -> impl Iterator<Item = Vec<u8>> + '_ {
    (0..bytes.len()).map(move |length| bytes[..length].to_vec())
}

/// The bytes with something after them: each single byte, the last record
/// again, and the whole again.
pub fn extensions(bytes: &[u8]) -> impl Iterator<Item = Vec<u8>> + '_ {
    let last_record = bytes[bytes.len().saturating_sub(3)..].to_vec();
    let single = (0..=255u8).map(|byte| vec![byte]);
    let tails = single.chain([last_record, bytes.to_vec()]);
    tails.map(move |tail| [bytes, &tail].concat())
}

/// The bytes with the count in the last record off by one and by 256, up and
/// down.
pub fn wrong_counts(bytes: &[u8]) -> impl Iterator<Item = Vec<u8>> + '_ {
    let body = bytes.len() - 2;
    let count = walk::number(&bytes[body..]);
    let differences = [1u16, 256];
    let counts = differences.map(|by| [count.wrapping_add(by), count.wrapping_sub(by)]);
    counts.into_iter().flatten().map(move |wrong| {
        let mut damaged = bytes.to_vec();
        damaged[body..].copy_from_slice(&walk::number_bytes(wrong));
        damaged
    })
}

/// Records of random kinds with small random bodies, after a first record; most
/// are no table and no form.
pub fn random_records(generator: &mut Generator, most_records: usize) -> Vec<u8> {
    let bodies = [
        (walk::KIND_PRODUCT, 0),
        (walk::KIND_FACTOR, 3),
        (walk::KIND_END, 2),
        (walk::KIND_ON, 2),
        (walk::KIND_FREE, 2),
        (walk::KIND_VARIABLES, 1),
    ];
    let variables = generator.below(MOST_VARIABLES + 2);
    let mut bytes = vec![walk::KIND_VARIABLES, variables as u8];
    for _ in 0..generator.below(most_records + 1) {
        let (kind, length) = bodies[generator.below(bodies.len())];
        bytes.push(kind);
        bytes.extend((0..length).map(|_| generator.below(3) as u8));
    }
    bytes
}
