//! The two judges of bytes beside each other: the walk that stops at the first fault
//! and the list of every fault must report the same number and place, or none, on
//! inputs cut, changed, joined and drawn at random. Follows document 02, No. 3.

use reference::faults::{self, Fault};
use reference::form::{self, Factor, Form};
use reference::generate::{self, Generator};
use reference::refusal::Refused;
use reference::table::{self, LONGEST_STORED, MOST_POINTS, MOST_VARIABLES};
use std::collections::BTreeMap;

/// How often each number was reported, 0 for none: of tables and of forms.
#[derive(Default)]
struct Counts {
    tables: BTreeMap<u8, usize>,
    forms: BTreeMap<u8, usize>,
}

/// What both judges report.
fn agreed(walked: Option<Refused>, faults: &[Fault], bytes: &[u8]) -> Option<Refused> {
    let first = faults.first();
    let listed = first.map(|fault| fault.refused);
    assert_eq!(walked, listed, "{first:?}, {bytes:X?}");
    walked
}

impl Counts {
    /// Lets both judges read bytes as a table and as a form.
    fn judge(&mut self, bytes: &[u8]) {
        let walked = table::walk_stored(bytes).err();
        let of_table = agreed(walked, &faults::of_table(bytes), bytes);
        let walked = form::read_form(bytes).err();
        let of_form = agreed(walked, &faults::of_form(bytes), bytes);
        let number = |refused: Option<Refused>| refused.map_or(0, |refused| refused.refusal);
        *self.tables.entry(number(of_table)).or_insert(0) += 1;
        *self.forms.entry(number(of_form)).or_insert(0) += 1;
    }

    fn judge_all(&mut self, inputs: impl IntoIterator<Item = Vec<u8>>) {
        inputs.into_iter().for_each(|bytes| self.judge(&bytes));
    }

    /// Prints the counts; these numbers and no others must have come up.
    fn finish(self, tables: &[u8], forms: &[u8]) {
        println!("tables {:?}, forms {:?}", self.tables, self.forms);
        assert_eq!(self.tables.into_keys().collect::<Vec<u8>>(), tables);
        assert_eq!(self.forms.into_keys().collect::<Vec<u8>>(), forms);
    }
}

/// Small stored tables, and small forms.
fn small_inputs(generator: &mut Generator, rounds: usize) -> Vec<Vec<u8>> {
    let mut all = Vec::new();
    for n in (0..rounds).flat_map(|_| 1..=MOST_VARIABLES) {
        let (_, on, free) = generate::random_table(generator, n.min(3), 30, 30);
        all.push(table::write_stored(n, &on, &free));
        let count = generator.below(4);
        all.push(form::encode(&generate::random_form(generator, n, count)));
    }
    all
}

#[test]
fn cuts_changed_bytes_and_extensions() {
    let mut counts = Counts::default();
    for bytes in small_inputs(&mut Generator::new(30), 5) {
        counts.judge(&bytes);
        counts.judge_all(generate::cuts(&bytes));
        counts.judge_all(generate::every_changed_byte(&bytes));
        counts.judge_all(generate::extensions(&bytes));
        counts.judge_all(generate::wrong_counts(&bytes));
    }
    counts.finish(&[0, 20, 21, 25, 26], &[0, 20, 21, 22, 23, 24, 25, 26]);
}

/// Two to four bytes changed, often to kinds, and now and then a cut.
#[test]
fn several_faults() {
    let mut generator = Generator::new(31);
    let mut counts = Counts::default();
    let inputs = small_inputs(&mut generator, 10);
    for _ in 0..400_000 {
        let mut bytes = inputs[generator.below(inputs.len())].clone();
        for _ in 0..2 + generator.below(3) {
            let place = generator.below(bytes.len());
            bytes[place] = generate::telling_byte(&mut generator);
        }
        if generator.chance(10) {
            bytes.truncate(generator.below(bytes.len()));
        }
        counts.judge(&bytes);
    }
    counts.finish(&[0, 20, 21, 25, 26], &[0, 20, 21, 22, 23, 24, 25, 26]);
}

#[test]
fn random_records_and_random_bytes() {
    let mut generator = Generator::new(32);
    let mut counts = Counts::default();
    for _ in 0..200_000 {
        counts.judge(&generate::random_records(&mut generator, 8));
        let length = generator.below(14);
        let bytes = (0..length).map(|_| generate::telling_byte(&mut generator));
        counts.judge(&bytes.collect::<Vec<u8>>());
    }
    counts.finish(&[0, 20, 21, 25, 26], &[0, 20, 21, 22, 23, 24, 25, 26]);
}

/// Every list of up to three masks of three variables, right and wrong.
#[test]
fn every_short_list_of_masks() {
    let mut counts = Counts::default();
    for number in 0..10 * 10 * 10 {
        let masks = [number / 100, number / 10 % 10, number % 10];
        let factor = |&mask: &u16| Factor { constant: 1, mask };
        let product = masks.iter().map(factor).collect();
        counts.judge(&form::encode(&Form {
            variables: 3,
            products: vec![product],
        }));
    }
    counts.finish(&[20], &[0, 23, 24]);
}

/// 63 to 66 products and more, each byte of the last ones changed to each value.
#[test]
fn many_products() {
    let mut generator = Generator::new(33);
    let mut counts = Counts::default();
    for count in [63, 64, 65, 66, 130] {
        for n in [1, 4] {
            let mut form = generate::random_form(&mut generator, n, count);
            form.products
                .iter_mut()
                .for_each(|product| product.truncate(1));
            let bytes = form::encode(&form);
            counts.judge(&bytes);
            counts.judge_all(generate::cuts(&bytes));
            counts.judge_all(generate::extensions(&bytes));
            for place in bytes.len() - 12..bytes.len() {
                counts.judge_all((0..=255).map(|value| generate::with_byte(&bytes, place, value)));
            }
        }
    }
    counts.finish(&[20, 21], &[0, 20, 21, 23, 25, 26, 27]);
}

/// Inputs about the longest table: 4,096 points and more, with and without a record
/// 45, each also with a byte changed further left.
#[test]
fn the_longest_tables() {
    let mut generator = Generator::new(34);
    let mut counts = Counts::default();
    for points in MOST_POINTS - 1..=MOST_POINTS + 2 {
        let records: Vec<(u8, u16)> = (0..points as u16).map(|point| (0x4F, point)).collect();
        let whole = table::write_records(MOST_VARIABLES as u8, &records);
        for length in LONGEST_STORED - 4..=LONGEST_STORED + 7 {
            let mut bytes = whole.clone();
            bytes.resize(length, 0x45);
            counts.judge(&bytes);
            for place in [0, 1, 2, 3, LONGEST_STORED - 3, LONGEST_STORED - 2] {
                let value = generate::telling_byte(&mut generator);
                counts.judge_all(
                    bytes
                        .get(place)
                        .map(|_| generate::with_byte(&bytes, place, value)),
                );
            }
        }
    }
    counts.finish(&[0, 20, 21, 25, 26], &[20, 22, 26]);
}

/// The numbers, places and sentences of every fault of bytes.
fn told(faults: &[Fault]) -> Vec<(u8, usize, &'static str)> {
    let each = faults.iter();
    each.map(|fault| (fault.refused.refusal, fault.refused.place, fault.why))
        .collect()
}

#[test]
fn every_fault_of_a_form() {
    let bytes = [
        0x4E, 13, 0x58, 1, 1, 0, 0x50, 0x58, 2, 4, 0, 0x58, 0, 4, 0, 0x4F, 0, 0, 0x45, 2, 0, 0x47,
    ];
    let expected = [
        (22, 1, "n is above 12"),
        (20, 2, "a record of this kind may not stand here"),
        (23, 8, "the constant is above 1"),
        (24, 12, "a factor before it doesn't agree"),
        (20, 15, "a record of this kind may not stand here"),
        (25, 19, "there aren't so many before it"),
        (26, 21, "a byte stands after the record 45"),
    ];
    assert_eq!(told(&faults::of_form(&bytes)), expected);
    let at_one_byte = [0x4E, 1, 0x50, 0x58, 1, 1, 0, 0x58, 1, 2, 0, 0x58, 0];
    let expected = [
        (23, 8, "the mask is 2^n or more"),
        (24, 8, "a factor before it doesn't agree"),
        (21, 13, "the bytes end inside a body"),
    ];
    assert_eq!(told(&faults::of_form(&at_one_byte)), expected);
    let unknown = [0x4E, 0, 0x50, 0x58, 0, 0, 0, 0x47, 0x45];
    let expected = [
        (22, 1, "n is 0"),
        (23, 4, "the mask is 0"),
        (20, 7, "no record is of this kind"),
    ];
    assert_eq!(told(&faults::of_form(&unknown)), expected);
    let products = [&[0x4E, 1][..], &[0x50; 66]].concat();
    let expected = [
        (27, 66, "64 products stand before it"),
        (27, 67, "64 products stand before it"),
        (21, 68, "the bytes end before a record 45"),
    ];
    assert_eq!(told(&faults::of_form(&products)), expected);
}

/// At place 12,293 no kind is awaited, so that any byte there is one after the end.
#[test]
fn every_fault_of_a_table() {
    let bytes = [0x4E, 99, 0x4E, 2, 0x4F, 255, 255, 0x45, 2, 0, 0x45];
    let expected = [
        (20, 2, "a record of this kind may not stand here"),
        (25, 8, "there aren't so many before it"),
        (26, 10, "a byte stands after the record 45"),
    ];
    assert_eq!(told(&faults::of_table(&bytes)), expected);
    let points = [&[0x4E, 12][..], &[0x44, 1, 0].repeat(4097)].concat();
    assert_eq!(points.len(), LONGEST_STORED);
    let without_end = (21, LONGEST_STORED, "the bytes end before a record 45");
    assert_eq!(told(&faults::of_table(&points)), [without_end]);
    for byte in [0x45, 0x44, 0x47] {
        let longer = [&points[..], &[byte]].concat();
        let too_long = (26, LONGEST_STORED, "no table has a byte here");
        assert_eq!(told(&faults::of_table(&longer)), [too_long]);
    }
}
