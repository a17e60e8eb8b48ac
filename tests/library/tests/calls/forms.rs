//! Forms as bytes, whole and damaged in every way. Follows document 01, section
//! "The written form", and document 02, No. 3. The same seed gives the same forms; of
//! long lists the share is made that the environment asks for.

use crate::lent_calls;
use crate::stored::{self, ABOVE};
use crate::tables;
use glospruma::{MAX_POINTS, MAX_VARIABLES};
use library::settings::some;
use reference::form::{self, Factor, Form, Product, MOST_PRODUCTS};
use reference::generate::{self, Generator};
use reference::table::Table;
use reference::walk::{self, KIND_END, KIND_FACTOR, KIND_PRODUCT, KIND_VARIABLES};

/// The bytes of a form of these products, right or wrong.
fn bytes_of(variables: usize, products: Vec<Product>) -> Vec<u8> {
    form::encode(&Form {
        variables,
        products,
    })
}

/// The product of n factors, one for each variable, that is true at one point.
fn product_at(n: usize, point: u16) -> Product {
    let factor = |place| Factor {
        constant: (point >> place & 1) as u8,
        mask: 1u16 << place,
    };
    (0..n).rev().map(factor).collect()
}

/// Products of one factor each, true at every point but one.
fn all_but(n: usize, point: u16) -> Vec<Product> {
    let one_factor = |factor| vec![factor];
    product_at(n, !point).into_iter().map(one_factor).collect()
}

/// A maker of the products of random forms of n variables.
type Maker = fn(&mut Generator, usize) -> Vec<Product>;

/// At most three products.
fn few_products(generator: &mut Generator, n: usize) -> Vec<Product> {
    let count = generator.below(4);
    generate::random_form(generator, n, count).products
}

/// As many products as may be, or fewer.
fn any_products(generator: &mut Generator, n: usize) -> Vec<Product> {
    let count = generator.below(MOST_PRODUCTS + 1);
    generate::random_form(generator, n, count).products
}

/// Products of at most two factors, so that many points are on.
fn wide_products(generator: &mut Generator, n: usize) -> Vec<Product> {
    let mut products = few_products(generator, n);
    for product in &mut products {
        product.truncate(generator.below(3));
    }
    products
}

/// Two products that repeat.
fn repeated_products(generator: &mut Generator, n: usize) -> Vec<Product> {
    let both = generate::random_form(generator, n, 2).products;
    let count = generator.below(10);
    let choose = |_| both[generator.below(2)].clone();
    (0..count).map(choose).collect()
}

/// Products of n factors.
fn single_points(generator: &mut Generator, n: usize) -> Vec<Product> {
    let count = generator.below(12);
    let point = |_| product_at(n, generator.below(1 << n) as u16);
    (0..count).map(point).collect()
}

const MAKERS: [Maker; 5] = [
    few_products,
    any_products,
    wide_products,
    repeated_products,
    single_points,
];

/// Rounds of random forms for each number of variables and each maker.
const ROUNDS: usize = 64;

/// Random forms, 320 for each number of variables.
pub fn random_forms(seed: u64) -> impl Iterator<Item = Vec<u8>> {
    let mut generator = Generator::new(seed);
    let widths = (0..ROUNDS).flat_map(|_| 1..=MAX_VARIABLES);
    let kinds = widths.flat_map(|n| MAKERS.map(|maker| (n, maker)));
    some(kinds).map(move |(n, maker)| bytes_of(n, maker(&mut generator, n)))
}

/// Forms of 64 products without factors, one for each number of variables.
pub fn most_products() -> impl Iterator<Item = Vec<u8>> {
    (1..=MAX_VARIABLES).map(|n| bytes_of(n, vec![Vec::new(); MOST_PRODUCTS]))
}

/// Inputs about the bounds: every byte as n, with no product and with one that
/// has no factor; 64 products and more, also so many that a narrower number
/// would take them for fewer; as many factors as variables and one more; single
/// points, all points but one, and the longest form.
pub fn bounds() -> Vec<Vec<u8>> {
    let mut all = Vec::new();
    for n in 0..=255 {
        all.push(bytes_of(n, Vec::new()));
        all.push(bytes_of(n, vec![Vec::new()]));
    }
    let mut generator = Generator::new(2);
    for n in 1..=MAX_VARIABLES {
        for count in [63, 64, 65, 66, 128, 255, 256, 257, 320, 65_536, 65_600] {
            all.push(bytes_of(n, vec![Vec::new(); count]));
        }
        for count in [63, 64, 65, 66, 256, 320] {
            let form = generate::random_form(&mut generator, n, count);
            all.push(form::encode(&form));
        }
        let last = (1 << n) - 1;
        for point in [0, 1, last / 2, last] {
            let product = product_at(n, point);
            let again = product[n - 1];
            all.push(bytes_of(n, all_but(n, point)));
            all.push(bytes_of(n, vec![[&product[..], &[again]].concat()]));
            all.push(bytes_of(n, vec![product]));
        }
        for count in [64, 65] {
            let points = (0..count).map(|number: u16| number.wrapping_mul(2731) & last);
            let products = points.map(|point| product_at(n, point));
            all.push(bytes_of(n, products.collect()));
        }
    }
    all
}

/// Forms of one product of n variables with every list of at most three masks
/// from 0 to 2^n, and the number of its factors; constants are random.
pub fn mask_lists(n: usize) -> impl Iterator<Item = (Vec<u8>, usize)> {
    let mut generator = Generator::new(n as u64);
    let masks = (1 << n) + 1;
    let lists = (0..=3).flat_map(move |length| {
        let numbers = 0..usize::pow(masks, length);
        numbers.map(move |number| (number, length))
    });
    lists.map(move |(number, length)| {
        let factor = |place| Factor {
            constant: generator.below(2) as u8,
            mask: (number / masks.pow(place) % masks) as u16,
        };
        let product: Product = (0..length).map(factor).collect();
        (bytes_of(n, vec![product]), length as usize)
    })
}

/// Breaks a product of n variables that has two factors or more; the place is
/// that of any factor but the first.
type Break = fn(&mut Product, usize, usize);

/// Each way in which factors disagree, then masks and constants out of range:
/// lowest bits that rise; the same factor twice; equal lowest bits of different
/// masks; a lowest bit held by an earlier mask, by the next and by a later one.
const BREAKS: [Break; 11] = [
    |product, _, place| product.swap(place - 1, place),
    |product, _, place| product.insert(place, product[place]),
    |product, n, place| {
        let Factor { constant, mask } = product[place];
        let mask = mask ^ 1 << (n - 1);
        product.insert(place, Factor { constant, mask });
    },
    |product, _, place| product[place - 1].mask |= form::lowest_bit(product[place].mask),
    |product, _, place| product[place].mask |= form::lowest_bit(product[place - 1].mask),
    |product, _, place| product[place].mask |= form::lowest_bit(product[0].mask),
    |product, _, place| product[place].mask = 0,
    |product, n, place| product[place].mask |= 1 << n,
    |product, n, _| product[0].mask = 1 << n,
    |product, _, place| product[place].constant |= 2,
    |product, _, place| product[place].constant |= 128,
];

/// Forms in which one product, first, last or between others, is broken.
pub fn broken_forms(seed: u64) -> impl Iterator<Item = Vec<u8>> {
    let mut generator = Generator::new(seed);
    let widths = (0..20).flat_map(|_| 2..=MAX_VARIABLES);
    let kinds = widths.flat_map(|n| BREAKS.map(|broken| (n, broken)));
    some(kinds).map(move |(n, broken)| {
        let mut product = Vec::new();
        while product.len() < 2 {
            product = generate::random_product(&mut generator, n);
        }
        let place = 1 + generator.below(product.len() - 1);
        broken(&mut product, n, place);
        let mut products = few_products(&mut generator, n);
        products.insert(generator.below(products.len() + 1), product);
        bytes_of(n, products)
    })
}

/// Forms of no product to three, 20 for each number of variables.
fn short_forms(seed: u64) -> Vec<Vec<u8>> {
    let mut generator = Generator::new(seed);
    let widths = (0..5).flat_map(|_| 1..=MAX_VARIABLES);
    let kinds = widths.flat_map(|n| (0..=3).map(move |count| (n, count)));
    let forms = kinds.map(|(n, count)| generate::random_form(&mut generator, n, count));
    forms.map(|form| form::encode(&form)).collect()
}

/// Damages to a form: each byte changed to several other values, each kind of
/// record among them, each cut, each extension, and counts off by one and by 256.
fn several_damages(bytes: &[u8]) -> Vec<Vec<u8>> {
    let mut all = Vec::new();
    for change in [1, 2, 4, 8, 16, 32, 64, 128, 255] {
        all.extend(generate::changed_bytes(bytes, change));
    }
    for place in 0..bytes.len() {
        for kind in [KIND_VARIABLES, KIND_PRODUCT, KIND_FACTOR, KIND_END] {
            all.push(generate::with_byte(bytes, place, kind));
        }
    }
    all.extend(generate::cuts(bytes));
    all.extend(generate::extensions(bytes));
    all.extend(generate::wrong_counts(bytes));
    all
}

/// Damages to short forms, every possible one to some of them, and to forms of 64
/// products.
pub fn damaged_forms(seed: u64) -> impl Iterator<Item = Vec<u8>> {
    let numbered = short_forms(seed).into_iter().enumerate();
    let short = numbered.flat_map(|(number, bytes)| match number % 9 {
        0 => stored::every_damage(&bytes),
        _ => some(several_damages(&bytes)).collect(),
    });
    let mut generator = Generator::new(seed);
    let long = [1, 3, 6, 9].into_iter().flat_map(move |n| {
        let form = generate::random_form(&mut generator, n, MOST_PRODUCTS);
        stored::some_damages(&mut generator, &form::encode(&form))
    });
    short.chain(long)
}

/// A few records after a first one: mostly products and factors in range, mostly
/// with the right count and nothing after it.
pub fn random_records(generator: &mut Generator) -> Vec<u8> {
    let variables = generator.below(MAX_VARIABLES + 2);
    let mut bytes = vec![KIND_VARIABLES, variables as u8];
    let mut products = 0;
    for place in 0..generator.below(6) {
        match generator.below(40) {
            0 => bytes.push(generator.below(256) as u8),
            draw if place == 0 || draw < 20 => {
                bytes.push(KIND_PRODUCT);
                products += 1;
            }
            draw => {
                let mask = generator.below((1 << variables) + 1) as u16;
                bytes.extend([KIND_FACTOR, (draw % 2) as u8]);
                bytes.extend(walk::number_bytes(mask));
            }
        }
    }
    let count = products + u16::from(generator.chance(5));
    bytes.push(KIND_END);
    bytes.extend(walk::number_bytes(count));
    if generator.chance(5) {
        bytes.push(generator.below(256) as u8);
    }
    bytes
}

/// Bytes of any values; half of them begin as a form does.
pub fn random_bytes(generator: &mut Generator) -> Vec<u8> {
    let length = generator.below(40);
    let mut bytes: Vec<u8> = (0..length).map(|_| generator.below(256) as u8).collect();
    if generator.chance(50) {
        let variables = generator.below(MAX_VARIABLES + 2) as u8;
        let start = [KIND_VARIABLES, variables, KIND_PRODUCT];
        bytes.splice(0..0, start);
    }
    bytes
}

/// Tables and the bytes of the forms written for them: every table of 1, 2 and 3
/// variables, and wider ones that keep at most six.
pub fn written_forms() -> impl Iterator<Item = (Table, Vec<u8>)> {
    let wider = tables::kept_tables(4, 2, 6);
    tables::small_tables().chain(wider).map(|table| {
        let (n, on, free) = &table;
        let form = form::write_form(*n, on, free).expect("at most six variables are kept");
        let bytes = form::encode(&form);
        (table, bytes)
    })
}

/// The points of a form of n variables; the form is also written as it was read,
/// which leaves the byte behind it.
pub fn points_read(n: usize, form: &[u8]) -> Vec<u16> {
    let mut room = vec![9; form.len() + 1];
    let found = lent_calls::form_rewrite(form, &mut room);
    assert_eq!((found.refusal, found.length), (0, form.len()));
    assert_eq!(room, [form, &[9]].concat());
    let mut room = [0; MAX_POINTS];
    let found = lent_calls::form_points(form, &mut room);
    assert_eq!((found.refusal, found.variables), (0, n));
    room[..found.count].to_vec()
}

/// Bytes that aren't a form, with number and place, most by a single fault and at the
/// bound of a number.
pub const FAULTY: [(u8, usize, &[u8]); 37] = [
    (21, 0, &[]),
    (21, 1, &[0x4E]),
    (21, 2, &[0x4E, 1]),
    (20, 0, &[0x45, 0, 0]),
    (22, 1, &[0x4E, 0]),
    (22, 1, &[0x4E, 0, 0x45, 0, 0]),
    (22, 1, &[0x4E, ABOVE, 0x45, 0, 0]),
    (22, 1, &[0x4E, 255, 0x45, 0, 0]),
    (20, 0, &[0x4F, 1, 0x45, 0, 0]),
    (21, 4, &[0x4E, 1, 0x45, 0]),
    (25, 3, &[0x4E, 1, 0x45, 1, 0]),
    (25, 3, &[0x4E, 1, 0x45, 0, 1]),
    (25, 3, &[0x4E, 1, 0x45, 1, 0, 0]),
    (26, 5, &[0x4E, 1, 0x45, 0, 0, 0]),
    (26, 5, &[0x4E, 1, 0x45, 0, 0, 0x45, 0, 0]),
    (20, 2, &[0x4E, 1, 0x4E, 1, 0x45, 0, 0]),
    (21, 3, &[0x4E, 1, 0x50]),
    (25, 4, &[0x4E, 1, 0x50, 0x45, 0, 0]),
    (25, 4, &[0x4E, 1, 0x50, 0x45, 1, 1]),
    (20, 2, &[0x4E, 1, 0x58, 1, 1, 0, 0x45, 0, 0]),
    (20, 2, &[0x4E, 1, 0x58, 1, 1, 0, 0x50, 0x45, 1, 0]),
    (20, 3, &[0x4E, 1, 0x50, 0x4F, 1, 0, 0x45, 1, 0]),
    (20, 2, &[0x4E, 1, 0x4F, 1, 0, 0x45, 1, 0]),
    (21, 5, &[0x4E, 4, 0x50, 0x58, 2]),
    (23, 4, &[0x4E, 4, 0x50, 0x58, 2, 4, 0]),
    (23, 4, &[0x4E, 4, 0x50, 0x58, 2, 4, 0, 0x45, 1, 0]),
    (23, 4, &[0x4E, 4, 0x50, 0x58, 1, 0, 0, 0x45, 1, 0]),
    (23, 4, &[0x4E, 4, 0x50, 0x58, 1, 16, 0, 0x45, 1, 0]),
    (23, 4, &[0x4E, 4, 0x50, 0x58, 1, 4, 1, 0x45, 1, 0]),
    (23, 4, &[0x4E, 12, 0x50, 0x58, 1, 0, 16, 0x45, 1, 0]),
    (23, 8, &[0x4E, 4, 0x50, 0x58, 1, 4, 0, 0x58, 2, 4, 0]),
    (24, 8, &[0x4E, 4, 0x50, 0x58, 1, 8, 0, 0x58, 1, 10, 0]),
    (24, 8, &[0x4E, 4, 0x50, 0x58, 1, 4, 0, 0x58, 1, 8, 0]),
    (24, 8, &[0x4E, 4, 0x50, 0x58, 1, 12, 0, 0x58, 1, 4, 0]),
    (24, 8, &[0x4E, 4, 0x50, 0x58, 1, 4, 0, 0x58, 0, 4, 0]),
    (
        24,
        12,
        &[0x4E, 4, 0x50, 0x58, 1, 8, 0, 0x58, 1, 4, 0, 0x58, 1, 9, 0],
    ),
    (21, 10, &[0x4E, 4, 0x50, 0x58, 1, 4, 0, 0x58, 0, 4]),
];
