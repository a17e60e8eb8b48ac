//! The calls that build the index of a form and change it, compared with the
//! reference: forms whole and damaged, every form of few variables, lists and rooms of
//! every kind, records that aren't those of the form, and refusals in their order.
//! `index_runs` makes whole runs of changes. Follows document 02, No. 5, and document
//! 01, section "Refusal numbers".

use crate::forms;
use crate::judges;
use crate::lent::{room_lengths, Entry, Lent};
use crate::stored::ABOVE;
use crate::tally::Tally;
use glospruma::{FORM_ROOM, MAX_POINTS, MAX_VARIABLES};
use library::settings::some;
use library::{Indexed, PointRecord};
use reference::calls;
use reference::form::{self, Factor, Form, Product, MOST_PRODUCTS};
use reference::generate::{self, Generator};
use reference::index::{self, Record};
use reference::numbers::IndexNumbers;

/// The numbers of the call in the reference's words.
pub fn numbers(found: &Indexed) -> IndexNumbers {
    IndexNumbers {
        refusal: found.refusal,
        place: found.place,
        variables: found.variables,
        length: found.length,
        products: found.products,
    }
}

/// Records in the reference's words.
pub fn to_reference(records: &[PointRecord]) -> Vec<Record> {
    let record = |&PointRecord { count, first }: &PointRecord| Record { count, first };
    records.iter().map(record).collect()
}

/// Records in the words of the package.
pub fn from_reference(records: &[Record]) -> Vec<PointRecord> {
    let record = |&Record { count, first }: &Record| PointRecord { count, first };
    records.iter().map(record).collect()
}

/// The records of a form, as the reference builds them.
pub fn records_of(form: &Form) -> Vec<PointRecord> {
    from_reference(&index::records(form))
}

/// The bytes of a product alone.
pub fn product_bytes(variables: usize, product: &Product) -> Vec<u8> {
    let form = form::encode(&Form {
        variables,
        products: vec![product.clone()],
    });
    form[2..form.len() - 3].to_vec()
}

/// A call, with the product that it appends.
#[derive(Clone, Copy, Debug)]
pub enum Call<'a> {
    Build,
    Append(&'a [u8]),
    Remove,
}

impl Call<'_> {
    /// Makes the call; the product is lent.
    fn make(self, form: &[u8], list: &mut [PointRecord], room: &mut [u8]) -> Indexed {
        match self {
            Call::Build => library::index_build(form, list),
            Call::Append(product) => {
                let product = Lent::holding(product);
                let found = library::index_append(form, product.part(), list, room);
                product.assert_as_lent();
                found
            }
            Call::Remove => library::index_remove(form, list, room),
        }
    }

    /// The same by the reference.
    fn expect(self, form: &[u8], list: &mut [Record], room: &mut [u8]) -> IndexNumbers {
        match self {
            Call::Build => calls::index_build(form, list),
            Call::Append(product) => calls::index_append(form, product, list, room),
            Call::Remove => calls::index_remove(form, list, room),
        }
    }

    /// The second judge's word on number and place.
    fn judge(self, form: &[u8], answer: judges::Refused) {
        match self {
            Call::Append(product) => judges::assert_appended(form, product, answer),
            _ => judges::assert_form(form, answer),
        }
    }
}

/// What a call gives: its numbers, the list, and the new form.
pub type Answer = (IndexNumbers, Vec<PointRecord>, Vec<u8>);

/// Makes a call on a list of these records and with a room of so many bytes, all of
/// them lent; the reference makes it on equal ones, and then all numbers and all
/// memory are compared.
pub fn compare(
    tally: &mut Tally,
    bytes: &[u8],
    call: Call,
    records: &[PointRecord],
    length: usize,
) -> Answer {
    let form = Lent::holding(bytes);
    let (mut list, mut room) = (Lent::room_of(records), Lent::room(length));
    let (mut expected_list, mut answer) = (to_reference(records), room.part().to_vec());
    let expected = call.expect(bytes, &mut expected_list, &mut answer);
    let found = call.make(form.part(), list.part_mut(), room.part_mut());
    let lengths = (records.len(), length);
    assert_eq!(
        numbers(&found),
        expected,
        "{call:X?}, list and room {lengths:?}, {bytes:X?}"
    );
    call.judge(bytes, (found.refusal, found.place));
    let expected_list = from_reference(&expected_list);
    form.assert_as_lent();
    list.assert_front(&expected_list);
    room.assert_front(&answer);
    tally.add(found.refusal);
    answer.truncate(expected.length);
    (expected, expected_list, answer)
}

/// A list that begins with these records and has so many more, of a pattern.
fn with_more(records: &[PointRecord], more: usize) -> Vec<PointRecord> {
    [records, &PointRecord::pattern()[..more]].concat()
}

/// Makes all three calls on a form, with lists and rooms of every kind.
fn compare_all(tally: &mut Tally, form: &Form, product: &[u8]) {
    let bytes = form::encode(form);
    let records = records_of(form);
    for length in [0, records.len() - 1] {
        for call in [Call::Build, Call::Append(product), Call::Remove] {
            compare(tally, &bytes, call, &records[..length], FORM_ROOM);
        }
    }
    for more in [0, 1, 40] {
        let other = &PointRecord::pattern()[..records.len() + more];
        compare(tally, &bytes, Call::Build, other, 0);
    }
    let list = with_more(&records, bytes.len() % 3);
    for length in room_lengths(bytes.len() + product.len()) {
        compare(tally, &bytes, Call::Append(product), &list, length);
    }
    let last = form.products.last();
    let removed = last.map_or(0, |last| 1 + 4 * last.len());
    for length in room_lengths(bytes.len() - removed) {
        compare(tally, &bytes, Call::Remove, &list, length);
    }
}

/// Every canonical product of n variables, by all lists of masks and constants.
fn every_product(n: usize) -> Vec<Product> {
    let factors = (1..1u16 << n).flat_map(|mask| [0, 1].map(|constant| Factor { constant, mask }));
    let factors: Vec<Factor> = factors.collect();
    let (mut found, mut longer) = (Vec::new(), vec![Product::new()]);
    while !longer.is_empty() {
        let with_one_more = longer.iter().flat_map(|product| {
            let more = factors.iter();
            more.map(move |&factor| [&product[..], &[factor]].concat())
        });
        let canonical = with_one_more.filter(|product| form::is_canonical(product));
        let next = canonical.collect();
        found.append(&mut longer);
        longer = next;
    }
    found
}

/// Every form of n variables of at most two products.
fn every_short_form(n: usize) -> Vec<Form> {
    let products = every_product(n);
    let one = products.iter().map(|product| vec![product.clone()]);
    let two = products.iter().flat_map(|first| {
        let seconds = products.iter();
        seconds.map(move |second| vec![first.clone(), second.clone()])
    });
    let lists = one.chain(two).chain([Vec::new()]);
    let form = |products| Form {
        variables: n,
        products,
    };
    lists.map(form).collect()
}

/// A pseudocube of n variables has one canonical product: 3 and 11 of them for n 1
/// and 2.
#[test]
fn every_form_of_one_and_two_variables() {
    let mut tally = Tally::new("index, every form of one and two variables");
    for (n, count) in [(1, 3), (2, 11)] {
        let products = every_product(n);
        assert_eq!(products.len(), count);
        for form in some(every_short_form(n)) {
            for product in &products {
                compare_all(&mut tally, &form, &product_bytes(n, product));
            }
        }
    }
    tally.finish(&[0, 7, 12]);
}

/// Every form of few products of three variables, but with one product each to append.
#[test]
fn every_form_of_three_variables() {
    let mut tally = Tally::new("index, every form of three variables");
    let products = every_product(3);
    assert_eq!(products.len(), 51);
    for (place, form) in some(every_short_form(3).into_iter().enumerate()) {
        let product = &products[place % products.len()];
        compare_all(&mut tally, &form, &product_bytes(3, product));
    }
    tally.finish(&[0, 7, 12]);
}

/// The form of some bytes that are one.
fn read(bytes: &[u8]) -> Form {
    form::read_form(bytes).expect("a form")
}

#[test]
fn random_forms() {
    let mut tally = Tally::new("index, random forms");
    let mut generator = Generator::new(250);
    for bytes in forms::random_forms(251).step_by(11) {
        let form = read(&bytes);
        let product = generate::random_product(&mut generator, form.variables);
        let product = product_bytes(form.variables, &product);
        compare_all(&mut tally, &form, &product);
    }
    tally.finish(&[0, 7, 12, 27]);
}

/// A form of 63, 64 and 65 products: the 64th can be appended and the 65th not, from
/// a form of 65 nothing is taken away, and 64 can be taken away.
#[test]
fn sixty_four_products_and_more() {
    let mut tally = Tally::new("index, 64 products and more");
    let mut generator = Generator::new(252);
    for n in some(1..=MAX_VARIABLES) {
        let mut form = generate::random_form(&mut generator, n, MOST_PRODUCTS + 1);
        let product = product_bytes(n, &form.products[0]);
        let append = Call::Append(&product);
        let list = records_of(&form);
        for call in [Call::Build, append, Call::Remove] {
            let (found, ..) = compare(&mut tally, &form::encode(&form), call, &list, FORM_ROOM);
            assert_eq!(found.refusal, 27);
            assert_ne!(found.place, 0);
        }
        form.products.pop();
        let (bytes, list) = (form::encode(&form), records_of(&form));
        let (found, ..) = compare(&mut tally, &bytes, append, &list, FORM_ROOM);
        assert_eq!((found.refusal, found.place), (27, 0));
        let (found, list, bytes) = compare(&mut tally, &bytes, Call::Remove, &list, FORM_ROOM);
        assert_eq!((found.refusal, found.products), (0, MOST_PRODUCTS - 1));
        let (found, ..) = compare(&mut tally, &bytes, append, &list, FORM_ROOM);
        assert_eq!((found.refusal, found.products), (0, MOST_PRODUCTS));
    }
    tally.finish(&[0, 27]);
}

/// A product without factors holds every point, and comes first in a form without
/// products.
#[test]
fn the_product_without_factors() {
    let mut tally = Tally::new("index, the product without factors");
    for n in 1..=MAX_VARIABLES {
        let form = [0x4E, n as u8, 0x45, 0, 0];
        let (_, list, _) = compare(&mut tally, &form, Call::Build, &with_more(&[], 1 << n), 0);
        let appended = compare(&mut tally, &form, Call::Append(&[0x50]), &list, 6);
        let all = vec![PointRecord { count: 1, first: 0 }; 1 << n];
        let numbers = IndexNumbers {
            variables: n,
            length: 6,
            products: 1,
            ..Default::default()
        };
        let bytes = vec![0x4E, n as u8, 0x50, 0x45, 1, 0];
        assert_eq!(appended, (numbers, all.clone(), bytes.clone()));
        let (_, list, _) = compare(&mut tally, &bytes, Call::Append(&[0x50]), &all, 7);
        assert_eq!(list, vec![PointRecord { count: 2, first: 0 }; 1 << n]);
        let (_, list, form) = compare(&mut tally, &bytes, Call::Remove, &all, 5);
        assert_eq!(list, vec![PointRecord::default(); 1 << n]);
        assert_eq!(form, [0x4E, n as u8, 0x45, 0, 0]);
    }
    tally.finish(&[0]);
}

/// Changes to one number of a record, or to both.
const CHANGES: [fn(&mut PointRecord); 8] = [
    |record| record.count = record.count.wrapping_add(1),
    |record| record.count = record.count.wrapping_sub(1),
    |record| record.count ^= 0x100,
    |record| record.first = record.first.wrapping_add(1),
    |record| record.first = record.first.wrapping_sub(1),
    |record| record.first ^= 0x8000,
    |record| std::mem::swap(&mut record.count, &mut record.first),
    |record| *record = PointRecord { count: 9, first: 9 },
];

/// The list with a change to the record at a place.
fn changed(list: &[PointRecord], place: usize, change: fn(&mut PointRecord)) -> Vec<PointRecord> {
    let mut changed = list.to_vec();
    change(&mut changed[place]);
    changed
}

/// One record is wrong in either number: 17 for a point of the form, and accepted
/// behind them.
#[test]
fn one_other_record() {
    let mut tally = Tally::new("index, one other record");
    let mut generator = Generator::new(253);
    for n in some((0..3).flat_map(|_| 1..=MAX_VARIABLES)) {
        let form = generate::random_form(&mut generator, n, 3);
        let (bytes, size) = (form::encode(&form), 1 << n);
        let product = product_bytes(n, &form.products[1]);
        let list = with_more(&records_of(&form), 2);
        let random = (0..3).map(|_| generator.below(size));
        let places = (0..size.min(8)).chain([size - 1]).chain(random);
        for place in places.chain([size, size + 1]) {
            for change in CHANGES {
                let other = changed(&list, place, change);
                let expected = if place < size && other != list { 17 } else { 0 };
                for call in [Call::Append(&product), Call::Remove] {
                    let (found, ..) = compare(&mut tally, &bytes, call, &other, FORM_ROOM);
                    assert_eq!(found.refusal, expected, "n {n}, record {place}");
                }
            }
        }
    }
    tally.finish(&[0, 17]);
}

/// The list of another form of as many variables, of its first products alone, and of
/// the changed form.
#[test]
fn lists_of_other_forms() {
    let mut tally = Tally::new("index, lists of other forms");
    let mut generator = Generator::new(254);
    for n in some((0..20).flat_map(|_| 1..=7)) {
        let mut form = generate::random_form(&mut generator, n, 4);
        let bytes = form::encode(&form);
        let product = product_bytes(n, &form.products[0]);
        let other = generate::random_form(&mut generator, n, 4);
        let turned = Form {
            variables: n,
            products: form.products.iter().rev().cloned().collect(),
        };
        form.products.pop();
        for list in [&other, &turned, &form].map(records_of) {
            for call in [Call::Append(&product), Call::Remove] {
                compare(&mut tally, &bytes, call, &list, FORM_ROOM);
            }
        }
    }
    tally.finish(&[0, 17]);
}

/// What may be wrong with a change, in the order in which it is refused. The last but
/// one is a 65th product, or a removal from none.
const WRONG: usize = 6;

/// A change with each of these things wrong that a mask names: the form's bytes, the
/// product's, the length of the list, a record, the number of products, the room.
fn wrong_change(mask: usize, is_append: bool) -> (Vec<u8>, Vec<u8>, Vec<PointRecord>, usize) {
    let is = |place: usize| mask >> place & 1 == 1;
    let products = match (is(4), is_append) {
        (false, _) => 3,
        (true, true) => MOST_PRODUCTS,
        (true, false) => 0,
    };
    let form = Form {
        variables: 3,
        products: vec![Product::new(); products],
    };
    let (mut bytes, mut list) = (form::encode(&form), with_more(&records_of(&form), 1));
    if is(0) {
        bytes[1] = ABOVE;
    }
    let product = match is(1) {
        true => vec![0x50, 0x58, 1, 2, 0, 0x58, 0, 2, 0],
        false => vec![0x50, 0x58, 1, 2, 0],
    };
    if is(3) {
        list[6].first = 1;
    }
    if is(2) {
        list.truncate(7);
    }
    let room = if is(5) { 0 } else { FORM_ROOM };
    (bytes, product, list, room)
}

/// Every set of things that may be wrong at once: the first of them is refused.
#[test]
fn refusals_in_their_order() {
    let mut tally = Tally::new("index, refusals in their order");
    for mask in 0..1usize << WRONG {
        let first = mask.trailing_zeros() as usize;
        let appended = [(22, 1), (24, 6), (7, 0), (17, 0), (27, 0), (7, 0), (0, 0)];
        let (bytes, product, list, length) = wrong_change(mask, true);
        let call = Call::Append(&product);
        let (found, ..) = compare(&mut tally, &bytes, call, &list, length);
        let expected = appended[first.min(WRONG)];
        assert_eq!((found.refusal, found.place), expected, "append {mask:b}");
        // A removal has no product to be wrong.
        if mask & 2 == 0 {
            let removed = [(22, 1), (0, 0), (7, 0), (17, 0), (12, 0), (7, 0), (0, 0)];
            let (bytes, _, list, length) = wrong_change(mask, false);
            let (found, ..) = compare(&mut tally, &bytes, Call::Remove, &list, length);
            let expected = removed[first.min(WRONG)];
            assert_eq!((found.refusal, found.place), expected, "remove {mask:b}");
        }
    }
    tally.finish(&[0, 7, 12, 17, 22, 24, 27]);
}

/// Every list of at most three masks as a product: it is refused as the form of that
/// product alone is, two places further left, and else gives that form's points.
#[test]
fn every_short_list_of_masks() {
    let mut tally = Tally::new("index, every short list of masks");
    for n in 1..=4 {
        let form = [0x4E, n as u8, 0x45, 0, 0];
        let list = vec![PointRecord::default(); 1 << n];
        for (bytes, factors) in some(forms::mask_lists(n)) {
            let product = &bytes[2..bytes.len() - 3];
            let (found, list, _) =
                compare(&mut tally, &form, Call::Append(product), &list, FORM_ROOM);
            let alone = calls::form_rewrite(&bytes, &mut [0; FORM_ROOM]);
            let place = alone.place.saturating_sub(2);
            assert_eq!((found.refusal, found.place), (alone.refusal, place));
            let points = list.iter().filter(|record| record.count == 1).count();
            if found.refusal == 0 {
                assert_eq!(points, 1 << (n - factors));
            }
        }
    }
    tally.finish(&[0, 23, 24]);
}

/// Makes all three calls on bytes that may be a form; the list is right if they are.
pub fn compare_bytes(tally: &mut Tally, bytes: &[u8], product: &[u8]) {
    let list = match form::read_form(bytes) {
        Ok(form) => with_more(&records_of(&form), 1),
        Err(_) => with_more(&[], 3),
    };
    for call in [Call::Build, Call::Append(product), Call::Remove] {
        compare(tally, bytes, call, &list, FORM_ROOM);
    }
}

#[test]
fn bounds() {
    let mut tally = Tally::new("index, bounds");
    for bytes in some(forms::bounds()) {
        compare_bytes(&mut tally, &bytes, &[0x50]);
    }
    tally.finish(&[0, 12, 22, 24, 27]);
}

#[test]
fn damaged_forms() {
    let mut tally = Tally::new("index, damaged forms");
    let damaged = forms::damaged_forms(255).step_by(5);
    for bytes in damaged.chain(forms::broken_forms(256)) {
        compare_bytes(&mut tally, &bytes, &[0x50, 0x58, 1, 1, 0]);
    }
    tally.finish(&[0, 12, 20, 21, 22, 23, 24, 25, 26, 27]);
}

/// The longest form with a product more or less, and the list for all points.
#[test]
fn the_longest_form() {
    let mut tally = Tally::new("index, the longest form");
    let n = MAX_VARIABLES;
    let last = (0..n).rev().map(|place| Factor {
        constant: 1,
        mask: 1 << place,
    });
    let last: Product = last.collect();
    let form = Form {
        variables: n,
        products: vec![last.clone(); MOST_PRODUCTS - 1],
    };
    let (bytes, list) = (form::encode(&form), records_of(&form));
    assert_eq!(list.len(), MAX_POINTS);
    let product = product_bytes(n, &last);
    let append = Call::Append(&product);
    let (found, ..) = compare(&mut tally, &bytes, append, &list, FORM_ROOM - 1);
    assert_eq!(found.refusal, 7);
    let (found, list, bytes) = compare(&mut tally, &bytes, append, &list, FORM_ROOM);
    assert_eq!((found.refusal, found.length), (0, FORM_ROOM));
    let holders = list[MAX_POINTS - 1];
    assert_eq!((holders.count, holders.first), (64, 0));
    let (found, ..) = compare(&mut tally, &bytes, Call::Remove, &list, FORM_ROOM);
    assert_eq!(found.products, MOST_PRODUCTS - 1);
    tally.finish(&[0, 7]);
}
