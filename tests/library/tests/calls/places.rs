//! Number and place of every fault of bytes: every cut and every changed byte of some
//! hundred small tables and forms, two changed bytes at a time, inputs about the
//! longest table, forms of 64 products and more, and the same of products to be
//! appended. Every answer is compared with both judges of the reference, and with
//! numbers written here where the document names them. Follows document 02, No. 3 and
//! No. 5.

use crate::compare;
use crate::form_points;
use crate::form_rewrite;
use crate::index::{self, product_bytes, records_of, Call};
use crate::judges::Refused;
use crate::lent_calls;
use crate::read_table;
use crate::stored::{self, ABOVE};
use crate::tally::{assert_counts, Tally};
use glospruma::{COMPARISON_ROOM, FORM_ROOM, MAX_POINTS, MAX_VARIABLES};
use glospruma::{REPORT_ROOM, TABLE_LENGTH};
use library::settings::{some, taken};
use library::{Comparison, FormPoints, FormRewrite, Indexed, PointRecord, TableRead};
use reference::faults;
use reference::form::{self, Form, MOST_PRODUCTS};
use reference::generate::{self, Generator};
use reference::table::{self, Table};
use reference::walk::{self, KIND_END, KIND_FACTOR, KIND_ON, KIND_PRODUCT, KIND_VARIABLES};

/// Small inputs of each number of variables.
const ROUNDS: usize = 17;

/// Most points of a small table.
const FEW_POINTS: usize = 5;

/// Most factors of a product of a small form.
const FEW_FACTORS: usize = 3;

/// Bytes of a room that holds any small form.
const SMALL_ROOM: usize = 60;

/// Most variables of a form whose points are asked for: the reference tries every
/// point.
const QUICK: u8 = 8;

/// A table of a few points anywhere.
fn small_table(generator: &mut Generator, n: usize) -> Table {
    let count = generator.below(FEW_POINTS + 1);
    let points = (0..count).map(|_| generator.below(1 << n) as u16);
    let mut points: Vec<u16> = points.collect();
    points.sort_unstable();
    points.dedup();
    let (on, free) = points.into_iter().partition(|_| generator.chance(50));
    (n, on, free)
}

/// Some hundred small stored tables.
fn small_tables(seed: u64) -> Vec<Vec<u8>> {
    let mut generator = Generator::new(seed);
    let widths = (0..ROUNDS).flat_map(|_| 1..=MAX_VARIABLES);
    widths
        .map(|n| stored::bytes_of(&small_table(&mut generator, n)))
        .collect()
}

/// A form of a few products of a few factors.
fn small_form(generator: &mut Generator, n: usize) -> Form {
    let count = generator.below(4);
    let mut form = generate::random_form(generator, n, count);
    for product in &mut form.products {
        product.truncate(FEW_FACTORS);
    }
    form
}

/// Some hundred small forms.
fn small_forms(seed: u64) -> Vec<Vec<u8>> {
    let mut generator = Generator::new(seed);
    let widths = (0..ROUNDS).flat_map(|_| 1..=MAX_VARIABLES);
    widths
        .map(|n| form::encode(&small_form(&mut generator, n)))
        .collect()
}

/// Reads bytes as a table, in rooms for a few points.
fn table_refused(tally: &mut Tally, bytes: &[u8]) -> Refused {
    read_table::compare(tally, bytes, FEW_POINTS, FEW_POINTS)
}

/// Reads bytes as a form, by both calls if it has few variables or is none.
fn form_refused(tally: &mut Tally, bytes: &[u8]) -> Refused {
    let refused = form_rewrite::compare_in(tally, bytes, SMALL_ROOM);
    if refused.0 != 0 || bytes[1] <= QUICK {
        let again = form_points::compare_in(tally, bytes, 1 << QUICK);
        assert_eq!(again, refused);
    }
    refused
}

#[test]
fn small_tables_cut_and_changed() {
    let mut tally = Tally::new("places, small tables cut and changed");
    let tables = small_tables(240);
    for bytes in &tables {
        assert_eq!(table_refused(&mut tally, bytes), (0, 0));
    }
    for cut in some(tables.iter().flat_map(|bytes| generate::cuts(bytes))) {
        check_readers(&mut tally, &((21, cut.len()), cut));
    }
    for changed in some(
        tables
            .iter()
            .flat_map(|bytes| generate::every_changed_byte(bytes)),
    ) {
        table_refused(&mut tally, &changed);
    }
    tally.finish(&[0, 1, 2, 3, 20, 21, 25, 26]);
}

#[test]
fn small_forms_cut_and_changed() {
    let mut tally = Tally::new("places, small forms cut and changed");
    let forms = small_forms(241);
    for bytes in &forms {
        assert_eq!(form_refused(&mut tally, bytes), (0, 0));
    }
    for cut in some(forms.iter().flat_map(|bytes| generate::cuts(bytes))) {
        assert_eq!(form_refused(&mut tally, &cut), (21, cut.len()));
    }
    for changed in some(
        forms
            .iter()
            .flat_map(|bytes| generate::every_changed_byte(bytes)),
    ) {
        form_refused(&mut tally, &changed);
    }
    tally.finish(&[0, 20, 21, 22, 23, 24, 25, 26]);
}

/// Two bytes changed at random. So many of the inputs have two faults or more by the
/// second judge, a table's and a form's.
#[test]
fn two_bytes_changed() {
    let mut tally = Tally::new("places, two bytes changed");
    let mut generator = Generator::new(244);
    let inputs = [small_tables(242), small_forms(243)].concat();
    let mut counts = [0; 2];
    for _ in 0..taken(300_000) {
        let mut bytes = inputs[generator.below(inputs.len())].clone();
        let first = generator.below(bytes.len());
        let second = (first + 1 + generator.below(bytes.len() - 1)) % bytes.len();
        bytes[first] = generate::telling_byte(&mut generator);
        bytes[second] = generate::telling_byte(&mut generator);
        table_refused(&mut tally, &bytes);
        form_refused(&mut tally, &bytes);
        counts[0] += usize::from(faults::of_table(&bytes).len() > 1);
        counts[1] += usize::from(faults::of_form(&bytes).len() > 1);
    }
    println!(
        "{} tables and {} forms of two faults or more",
        counts[0], counts[1]
    );
    assert_counts("two bytes changed", &counts, 100_000);
    tally.finish(&[0, 1, 2, 3, 20, 21, 22, 23, 24, 25, 26]);
}

/// The record 45 with a count.
fn end(count: usize) -> Vec<u8> {
    let [low, high] = walk::number_bytes(count as u16);
    vec![KIND_END, low, high]
}

/// A stored table of so many points, without its record 45.
fn points(count: usize) -> Vec<u8> {
    let mut bytes = vec![KIND_VARIABLES, MAX_VARIABLES as u8];
    for point in 0..count as u16 {
        bytes.push(KIND_ON);
        bytes.extend(walk::number_bytes(point));
    }
    bytes
}

/// Bytes with the number and the place that they are refused with, 0 if accepted.
type Told = (Refused, Vec<u8>);

/// Inputs about the longest table: 4,096 points and more, without a record 45, with a
/// right and with a wrong one; a byte of each value behind those of 12,293 bytes.
fn about_the_longest() -> Vec<Told> {
    let most = points(MAX_POINTS);
    let more = points(MAX_POINTS + 1);
    let right = [&most[..], &end(MAX_POINTS)].concat();
    let wrong = [&most[..], &end(MAX_POINTS + 1)].concat();
    let length = TABLE_LENGTH;
    assert_eq!([&right, &wrong, &more].map(Vec::len), [length; 3]);
    let mut all = vec![
        ((0, 0), right.clone()),
        ((25, length - 2), wrong.clone()),
        ((21, length), more.clone()),
        ((21, length - 3), most),
        ((21, length - 2), right[..length - 2].to_vec()),
        ((21, length - 1), wrong[..length - 1].to_vec()),
        ((26, length), [&more[..], &end(MAX_POINTS + 1)].concat()),
        ((26, length), [&more[..], &end(MAX_POINTS)].concat()),
        ((26, length), points(MAX_POINTS + 2)),
        ((26, length), points(4 * MAX_POINTS)),
    ];
    for byte in 0..=255 {
        all.push(((26, length), [&right[..], &[byte]].concat()));
        all.push(((26, length), [&more[..], &[byte]].concat()));
        all.push(((25, length - 2), [&wrong[..], &[byte]].concat()));
    }
    all
}

/// The bytes of such an input with a fault further left, at its first byte or where
/// some record stands: an unknown kind, and a record 45 with a right and with a wrong
/// count.
fn further_left(bytes: &[u8]) -> Vec<Told> {
    let mut all = vec![((20, 0), generate::with_byte(bytes, 0, KIND_ON))];
    for records in [0, 1, 2000, MAX_POINTS - 2, MAX_POINTS - 1] {
        let place = 2 + 3 * records;
        all.push(((20, place), generate::with_byte(bytes, place, 0x47)));
        if records < MAX_POINTS - 1 {
            let (before, behind) = (&bytes[..place], &bytes[place + 3..]);
            let replaced = |record: &[u8]| [before, record, behind].concat();
            all.push(((26, place + 3), replaced(&end(records))));
            all.push(((25, place + 1), replaced(&end(records + 1))));
        }
    }
    all
}

/// All calls that read tables give this number and place; the report prints it.
fn check_readers(tally: &mut Tally, (refused, bytes): &Told) {
    let found = read_table::compare(tally, bytes, MAX_POINTS, MAX_POINTS);
    assert_eq!(found, *refused);
    let empty = stored::empty_beside(bytes);
    for pair in [(&bytes[..], &empty[..]), (&empty, bytes)] {
        let (found, _) = compare::compare(tally, pair, 0, COMPARISON_ROOM);
        assert_eq!((found.refusal, found.place), *refused);
    }
    if refused.0 != 0 {
        let mut room = vec![0; REPORT_ROOM];
        let length = lent_calls::report(bytes, &mut room).length;
        let text = format!("refused {} at {}\n", refused.0, refused.1);
        assert_eq!(room[..length], *text.as_bytes());
    }
}

#[test]
fn the_longest_tables() {
    let mut tally = Tally::new("places, the longest tables");
    for told in some(about_the_longest()) {
        check_readers(&mut tally, &told);
    }
    tally.finish(&[0, 21, 25, 26]);
}

#[test]
fn the_longest_tables_with_a_fault_further_left() {
    let mut tally = Tally::new("places, the longest tables with a fault further left");
    for (_, bytes) in some(about_the_longest()) {
        for told in further_left(&bytes) {
            check_readers(&mut tally, &told);
        }
    }
    tally.finish(&[20, 25, 26]);
}

/// The form of the first products of another, and where the next one would stand.
fn first_products(form: &Form, count: usize) -> (Vec<u8>, usize) {
    let bytes = form::encode(&Form {
        variables: form.variables,
        products: form.products[..count].to_vec(),
    });
    let next = bytes.len() - 3;
    (bytes, next)
}

/// Forms of 64, 65 and 66 products, cut before, at and behind the 65th, and with its
/// kind changed; wrong counts and bytes after the end; faults before and behind it.
fn about_the_most_products(form: &Form) -> Vec<Told> {
    let (most, place) = first_products(form, MOST_PRODUCTS);
    let [one_more, two_more] = [1, 2].map(|more| first_products(form, MOST_PRODUCTS + more).0);
    let records = &most[..place];
    let last = one_more.len() - 1;
    vec![
        ((0, 0), most.clone()),
        ((27, place), one_more.clone()),
        ((27, place), two_more),
        ((21, place), records.to_vec()),
        ((27, place), one_more[..=place].to_vec()),
        ((27, place), generate::with_byte(&one_more, last, 255)),
        ((27, place), generate::with_byte(&one_more, place + 1, 255)),
        ((20, place), generate::with_byte(&one_more, place, 0x47)),
        ((20, place), generate::with_byte(&one_more, place, KIND_ON)),
        ((20, 2), generate::with_byte(&one_more, 2, KIND_ON)),
        ((22, 1), generate::with_byte(&one_more, 1, ABOVE)),
        ((25, place + 1), [records, &end(MOST_PRODUCTS + 1)].concat()),
        ((25, place + 1), [records, &end(0)].concat()),
        ((26, place + 3), [&most[..], &[KIND_PRODUCT]].concat()),
    ]
}

#[test]
fn forms_of_64_products_and_more() {
    let mut tally = Tally::new("places, forms of 64 products and more");
    let mut generator = Generator::new(245);
    for n in (0..4).flat_map(|_| 1..=MAX_VARIABLES) {
        let form = generate::random_form(&mut generator, n, MOST_PRODUCTS + 2);
        for (refused, bytes) in some(about_the_most_products(&form)) {
            let length = bytes.len();
            let found = form_rewrite::compare_in(&mut tally, &bytes, length);
            assert_eq!(found, refused);
            let found = form_points::compare_in(&mut tally, &bytes, MAX_POINTS);
            assert_eq!(found, refused);
        }
    }
    tally.finish(&[0, 20, 21, 22, 25, 26, 27]);
}

/// A form to append to, its list, and a product of a few factors for it.
type Appending = (Vec<u8>, Vec<PointRecord>, Vec<u8>);

/// Small forms and products of each number of variables.
fn appendings(seed: u64, rounds: usize) -> Vec<Appending> {
    let mut generator = Generator::new(seed);
    let widths = (0..rounds).flat_map(|_| 1..=MAX_VARIABLES);
    let appending = |n| {
        let form = small_form(&mut generator, n);
        let mut product = generate::random_product(&mut generator, n);
        product.truncate(FEW_FACTORS);
        let bytes = product_bytes(n, &product);
        (form::encode(&form), records_of(&form), bytes)
    };
    widths.map(appending).collect()
}

/// Appends a product; hands back number and place.
fn product_refused(tally: &mut Tally, (form, list, _): &Appending, product: &[u8]) -> Refused {
    let call = Call::Append(product);
    let (found, ..) = index::compare(tally, form, call, list, FORM_ROOM);
    (found.refusal, found.place)
}

/// A cut between two records is a product of fewer factors; any other is missing bytes
/// where it ends.
#[test]
fn small_products_cut_and_changed() {
    let mut tally = Tally::new("places, small products cut and changed");
    for appending in &appendings(246, 3) {
        let whole = &appending.2;
        for cut in generate::cuts(whole) {
            let is_whole = cut.len() % 4 == 1;
            let expected = if is_whole { (0, 0) } else { (21, cut.len()) };
            assert_eq!(product_refused(&mut tally, appending, &cut), expected);
        }
        for changed in some(generate::every_changed_byte(whole)) {
            product_refused(&mut tally, appending, &changed);
        }
        for byte in some(0..=255) {
            let longer = [&whole[..], &[byte]].concat();
            let expected = match byte {
                KIND_FACTOR => (21, longer.len()),
                _ => (20, whole.len()),
            };
            assert_eq!(product_refused(&mut tally, appending, &longer), expected);
        }
    }
    tally.finish(&[0, 20, 21, 23, 24]);
}

/// Two bytes of a product changed at random, after a form that is right or cut.
#[test]
fn two_bytes_of_a_product_changed() {
    let mut tally = Tally::new("places, two bytes of a product changed");
    let mut generator = Generator::new(247);
    let mut all = appendings(248, 20);
    all.retain(|(form, ..)| form[1] <= QUICK);
    for _ in 0..taken(60_000) {
        let (mut form, list, mut product) = all[generator.below(all.len())].clone();
        for _ in 0..2 {
            let place = generator.below(product.len());
            product[place] = generate::telling_byte(&mut generator);
        }
        if generator.chance(5) {
            form.pop();
        }
        product_refused(&mut tally, &(form, list, vec![]), &product);
    }
    tally.finish(&[0, 20, 21, 23, 24]);
}

/// The numbers of a call that is refused without a place, all others 0.
macro_rules! refused {
    ($numbers:ident, $refusal:expr) => {
        $numbers {
            refusal: $refusal,
            ..Default::default()
        }
    };
}

/// Every refusal of a table's points, of rooms, and of what else is handed over.
#[test]
fn place_0_with_every_other_refusal() {
    let read = |bytes: &[u8]| lent_calls::read_table(bytes, &mut [], &mut [0; 9]);
    let wide = table::write_records(ABOVE, &[]);
    let large = table::write_records(2, &[(KIND_ON, 1), (KIND_ON, 4)]);
    let equal = table::write_records(2, &[(KIND_ON, 1), (KIND_ON, 1)]);
    let right = table::write_records(2, &[(KIND_ON, 1)]);
    for (refusal, bytes) in [(1, &wide), (2, &large), (3, &equal), (7, &right)] {
        assert_eq!(read(bytes), refused!(TableRead, refusal));
    }
    let other = table::write_records(3, &[]);
    let compared =
        |left: &[u8], right: &[u8], first| lent_calls::compare(left, right, first, &mut [0; 9]);
    for (refusal, bytes) in [(1, &wide), (2, &large), (3, &equal), (10, &other)] {
        let expected = refused!(Comparison, refusal);
        assert_eq!(compared(&right, bytes, 0), expected);
        assert_eq!(compared(bytes, &right, 0), expected);
    }
    assert_eq!(compared(&right, &right, 5), refused!(Comparison, 11));
    let form = [KIND_VARIABLES, 2, KIND_PRODUCT, KIND_END, 1, 0];
    let points = lent_calls::form_points(&form, &mut [0; 3]);
    assert_eq!(points, refused!(FormPoints, 7));
    let rewritten = lent_calls::form_rewrite(&form, &mut [0; 5]);
    assert_eq!(rewritten, refused!(FormRewrite, 7));
    let none = [PointRecord::default(); 4];
    let built = lent_calls::index_build(&form, &mut [PointRecord::default(); 3]);
    assert_eq!(built, refused!(Indexed, 7));
    let removed = |form: &[u8]| lent_calls::index_remove(form, &mut none.clone(), &mut [0; 4]);
    assert_eq!(removed(&form), refused!(Indexed, 17));
    assert_eq!(removed(&[0x4E, 2, 0x45, 0, 0]), refused!(Indexed, 12));
}

#[test]
fn place_0_when_accepted() {
    let bytes = table::write_records(2, &[(KIND_ON, 1)]);
    let read = lent_calls::read_table(&bytes, &mut [0; 9], &mut [0; 9]);
    assert_eq!((read.refusal, read.place, read.on_count), (0, 0, 1));
    let empty = stored::empty_beside(&bytes);
    let compared = lent_calls::compare(&bytes, &empty, 0, &mut [0; 9]);
    assert_eq!(
        (compared.refusal, compared.place, compared.total),
        (0, 0, 1)
    );
    let form = [KIND_VARIABLES, 2, KIND_PRODUCT, KIND_END, 1, 0];
    let points = lent_calls::form_points(&form, &mut [0; 9]);
    assert_eq!((points.refusal, points.place, points.count), (0, 0, 4));
    let rewritten = lent_calls::form_rewrite(&form, &mut [0; 9]);
    assert_eq!(
        (rewritten.refusal, rewritten.place, rewritten.length),
        (0, 0, 6)
    );
    let mut list = [PointRecord::default(); 4];
    let built = lent_calls::index_build(&form, &mut list);
    assert_eq!((built.refusal, built.place, built.length), (0, 0, 6));
    let appended = lent_calls::index_append(&form, &[0x50], &mut list, &mut [0; 7]);
    assert_eq!(
        (appended.refusal, appended.place, appended.length),
        (0, 0, 7)
    );
}
