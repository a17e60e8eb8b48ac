//! The index of a form: worked examples, sums of counts, faults of a product alone by
//! both judges, and the order of refusals. Follows document 02, No. 5.

use reference::calls;
use reference::faults;
use reference::form::{self, Form, MOST_PRODUCTS};
use reference::generate::{self, Generator};
use reference::index::{self, Record, NO_PRODUCT};
use reference::numbers::IndexNumbers;
use reference::table::MOST_VARIABLES;
use reference::walk::{KIND_FACTOR, KIND_PRODUCT};
use std::collections::BTreeMap;

/// P5's form: x2; or x1 and x2 differ and an even number of x1, x3 and x4 is set.
const P5: [u8; 19] = [
    0x4E, 4, 0x50, 0x58, 1, 4, 0, 0x50, 0x58, 1, 12, 0, 0x58, 0, 11, 0, 0x45, 2, 0,
];

/// What a lent list and a lent room hold before a call.
const FILL: (Record, u8) = (Record { count: 5, first: 6 }, 0xA5);

/// A record of so many products, and the first.
fn of((count, first): (u16, u16)) -> Record {
    Record { count, first }
}

/// The record of a point that no product holds.
const NONE: (u16, u16) = (0, NO_PRODUCT);

/// The records of P5's form by hand.
fn p5_records() -> Vec<Record> {
    let (left, both, right) = ((1, 0), (2, 0), (1, 1));
    let low = [NONE, NONE, NONE, NONE, both, left, left, both];
    let high = [NONE, right, right, NONE, left, left, left, left];
    low.into_iter().chain(high).map(of).collect()
}

/// The numbers of an accepted call.
fn accepted(variables: usize, length: usize, products: usize) -> IndexNumbers {
    IndexNumbers {
        refusal: 0,
        place: 0,
        variables,
        length,
        products,
    }
}

/// The numbers of a refused call.
fn refused(refusal: u8, place: usize) -> IndexNumbers {
    IndexNumbers {
        refusal,
        place,
        ..Default::default()
    }
}

#[test]
fn p5_built() {
    let mut list = vec![FILL.0; 18];
    assert_eq!(calls::index_build(&P5, &mut list), accepted(4, 19, 2));
    assert_eq!(list[..16], p5_records());
    assert_eq!(list[16..], [FILL.0; 2]);
    let mut short = vec![FILL.0; 15];
    assert_eq!(calls::index_build(&P5, &mut short), refused(7, 0));
    assert_eq!(short, [FILL.0; 15]);
}

/// x1 and x3 is appended, which holds 10, 11, 14 and 15, and taken away again.
#[test]
fn p5_changed() {
    let product = [0x50, 0x58, 1, 8, 0, 0x58, 1, 2, 0];
    let (mut list, mut room) = (p5_records(), vec![FILL.1; 30]);
    let appended = calls::index_append(&P5, &product, &mut list, &mut room);
    assert_eq!(appended, accepted(4, 28, 3));
    assert_eq!(room[..16], P5[..16]);
    assert_eq!(room[16..25], product);
    assert_eq!(room[25..], [0x45, 3, 0, FILL.1, FILL.1]);
    let mut expected = p5_records();
    expected[10] = of((2, 1));
    expected[11] = of((1, 2));
    expected[14] = of((2, 0));
    expected[15] = of((2, 0));
    assert_eq!(list, expected);
    let mut back = vec![FILL.1; 20];
    let removed = calls::index_remove(&room[..28], &mut list, &mut back);
    assert_eq!(removed, accepted(4, 19, 2));
    assert_eq!(back, [&P5[..], &[FILL.1]].concat());
    assert_eq!(list, p5_records());
}

/// Each product holds as many points as the counts have from it.
#[test]
fn counts_add_up_to_sizes() {
    let mut generator = Generator::new(50);
    for n in 1..=8 {
        for count in [0, 1, 2, 7, MOST_PRODUCTS] {
            let form = generate::random_form(&mut generator, n, count);
            let counts: usize = index::records(&form)
                .iter()
                .map(|record| usize::from(record.count))
                .sum();
            let sizes = form.products.iter();
            let sizes: usize = sizes.map(|product| index::size(n, product)).sum();
            let canonical = form.products.iter();
            let powers: usize = canonical.map(|product| 1 << (n - product.len())).sum();
            assert_eq!((counts, counts), (sizes, powers));
        }
    }
}

/// How often each number was reported, 0 for none.
#[derive(Default)]
struct Counts(BTreeMap<u8, usize>);

impl Counts {
    /// Lets both judges read bytes as a product.
    fn judge(&mut self, variables: usize, bytes: &[u8]) {
        let walked = index::read_product(variables, bytes).err();
        let faults = faults::of_product(variables as u8, bytes);
        let listed = faults.first().map(|fault| fault.refused);
        assert_eq!(walked, listed, "n {variables}, {bytes:X?}");
        let number = walked.map_or(0, |refused| refused.refusal);
        *self.0.entry(number).or_insert(0) += 1;
    }

    /// Prints the counts; every fault of a product must have come up.
    fn finish(self) {
        println!("products {:?}", self.0);
        assert_eq!(self.0.into_keys().collect::<Vec<u8>>(), [0, 20, 21, 23, 24]);
    }
}

/// The bytes of a product of random factors.
fn product_bytes(generator: &mut Generator, n: usize) -> Vec<u8> {
    let form = generate::random_form(generator, n, 1);
    let bytes = form::encode(&form);
    bytes[2..bytes.len() - 3].to_vec()
}

#[test]
fn products_cut_and_changed() {
    let mut generator = Generator::new(51);
    let mut counts = Counts::default();
    for n in (0..8).flat_map(|_| 1..=MOST_VARIABLES) {
        let bytes = product_bytes(&mut generator, n);
        counts.judge(n, &bytes);
        let damaged = generate::cuts(&bytes).chain(generate::every_changed_byte(&bytes));
        for bytes in damaged.chain(generate::extensions(&bytes)) {
            counts.judge(n, &bytes);
        }
    }
    counts.finish();
}

#[test]
fn products_at_random() {
    let mut generator = Generator::new(52);
    let mut counts = Counts::default();
    for _ in 0..200_000 {
        let n = 1 + generator.below(MOST_VARIABLES);
        let mut bytes = vec![KIND_PRODUCT];
        for _ in 0..generator.below(4) {
            let mask = generator.below((1 << n.min(4)) + 1) as u8;
            bytes.extend([KIND_FACTOR, generator.below(2) as u8, mask, 0]);
        }
        for _ in 0..generator.below(3) {
            let place = generator.below(bytes.len());
            bytes[place] = generate::telling_byte(&mut generator);
        }
        bytes.truncate(bytes.len() - generator.below(3).min(bytes.len()));
        counts.judge(n, &bytes);
    }
    counts.finish();
}

/// Bytes with the number and the place that they are refused with, if they are.
type Told = (&'static [u8], Option<(u8, usize)>);

/// A kind is awaited until the bytes of a product end, so that what else would end a
/// form is 20.
#[test]
fn places_in_a_product() {
    let cases: [Told; 15] = [
        (&[], Some((21, 0))),
        (&[0x58, 1, 1, 0], Some((20, 0))),
        (&[0x4E, 4, 0x50], Some((20, 0))),
        (&[0x50], None),
        (&[0x50, 0x50], Some((20, 1))),
        (&[0x50, 0x45, 1, 0], Some((20, 1))),
        (&[0x50, 0x58], Some((21, 2))),
        (&[0x50, 0x58, 2, 0], Some((21, 4))),
        (&[0x50, 0x58, 2, 1, 0], Some((23, 2))),
        (&[0x50, 0x58, 1, 16, 0], Some((23, 2))),
        (&[0x50, 0x58, 1, 8, 0, 0x58, 0, 6, 0], None),
        (&[0x50, 0x58, 1, 8, 0, 0x58, 0, 10, 0], Some((24, 6))),
        (&[0x50, 0x58, 1, 8, 0, 0x58, 0, 0, 0], Some((23, 6))),
        (&[0x50, 0x58, 1, 8, 0, 0x45, 1, 0], Some((20, 5))),
        (&[0x50, 0x58, 1, 8, 0, 0x58, 0, 10], Some((21, 8))),
    ];
    for (bytes, expected) in cases {
        let walked = index::read_product(4, bytes).err();
        let found = walked.map(|refused| (refused.refusal, refused.place));
        assert_eq!(found, expected, "{bytes:X?}");
    }
}

/// The list's length, then its records, then the number of products, then the room.
#[test]
fn order_of_refusals() {
    let form = |products: usize| {
        form::encode(&Form {
            variables: 1,
            products: vec![Vec::new(); products],
        })
    };
    let append = |form: &[u8], product: &[u8], list: &[Record]| {
        calls::index_append(form, product, &mut list.to_vec(), &mut [])
    };
    let (most, all, other) = (form(MOST_PRODUCTS), of((64, 0)), of((64, 1)));
    assert_eq!(append(&most[..9], &[], &[]), refused(21, 9));
    assert_eq!(append(&most, &[], &[]), refused(21, 0));
    assert_eq!(append(&most, &[0x50], &[other]), refused(7, 0));
    assert_eq!(append(&most, &[0x50], &[all, other]), refused(17, 0));
    assert_eq!(append(&most, &[0x50], &[all, all, other]), refused(27, 0));
    let (one, once) = (form(1), of((1, 0)));
    assert_eq!(append(&one, &[0x50], &[once, once]), refused(7, 0));
    let remove =
        |form: &[u8], list: &[Record]| calls::index_remove(form, &mut list.to_vec(), &mut []);
    let (empty, none) = (form(0), of(NONE));
    assert_eq!(remove(&empty[..4], &[]), refused(21, 4));
    assert_eq!(remove(&empty, &[once]), refused(7, 0));
    assert_eq!(remove(&empty, &[none, once]), refused(17, 0));
    assert_eq!(remove(&empty, &[none, none]), refused(12, 0));
    assert_eq!(remove(&one, &[once, once]), refused(7, 0));
}
