//! The worked examples, as far as these calls answer them, with the answers that
//! documents 01 and 02 print, and an index of P5's form. Follows document 01, section
//! "Table of proved examples", and document 02, No. 4 to No. 6.

use crate::forms;
use crate::lent_calls;
use crate::stored;
use glospruma::MAX_POINTS;
use library::{Basis, Indexed, Listed, PointRecord, ShortList};
use reference::primes::RECORD_LENGTH;

const P5_ON: [u16; 10] = [4, 5, 6, 7, 9, 10, 12, 13, 14, 15];

const P5_FORM: [u8; 19] = [
    0x4E, 0x04, 0x50, 0x58, 0x01, 0x04, 0x00, 0x50, 0x58, 0x01, 0x0C, 0x00, 0x58, 0x00, 0x0B, 0x00,
    0x45, 0x02, 0x00,
];

/// The report that document 01 prints whole.
const P5_REPORT: &str = "variables 4
on 10 free 0
degree 1
canonical 3
y1 = x1
y2 = x2
y3 = x3 + x4
restriction 2 3 5 6 7
product x2=1
product x1+x2=1 x1+x3+x4=0
";

/// A basis of these vectors.
fn basis(vectors: &[u16]) -> Basis {
    let mut basis = Basis::default();
    basis.vectors[..vectors.len()].copy_from_slice(vectors);
    basis.len = vectors.len();
    basis
}

/// A short list of these numbers.
fn list(values: &[u16]) -> ShortList {
    let mut list = ShortList::default();
    list.values[..values.len()].copy_from_slice(values);
    list.len = values.len();
    list
}

/// Numbers of an accepted listing.
fn listed(next: u64, passed: u64, records: usize) -> Listed {
    Listed {
        refusal: 0,
        next,
        passed,
        records,
    }
}

/// Degree and restriction of a table without free points.
fn degree_and_restriction(n: usize, on: &[u16]) -> (usize, Vec<u16>) {
    let mut room = [0; MAX_POINTS];
    let found = lent_calls::analyse(n, on, &[], &mut room);
    assert_eq!(found.refusal, 0);
    assert_eq!(lent_calls::linear_space(n, on).degree, found.degree);
    (found.degree, room[..found.count].to_vec())
}

/// The form written for a table, which must be true at these points alone.
fn form_true_at(n: usize, on: &[u16], free: &[u16], points: &[u16]) -> Vec<u8> {
    let mut room = [0; 1307];
    let found = lent_calls::write_form(n, on, free, &mut room);
    assert_eq!(found.refusal, 0);
    let form = room[..found.length].to_vec();
    assert_eq!(forms::points_read(n, &form), points);
    form
}

#[test]
fn p1_no_point() {
    assert_eq!(degree_and_restriction(1, &[]), (1, vec![]));
    assert_eq!(form_true_at(1, &[], &[], &[]), [0x4E, 1, 0x45, 0, 0]);
}

#[test]
fn p2_one_point() {
    assert_eq!(degree_and_restriction(1, &[0]), (0, vec![0]));
    let form = [0x4E, 1, 0x50, 0x58, 0, 1, 0, 0x45, 1, 0];
    assert_eq!(form_true_at(1, &[0], &[], &[0]), form);
}

#[test]
fn p3_both_points() {
    assert_eq!(degree_and_restriction(1, &[0, 1]), (1, vec![0]));
    let form = [0x4E, 1, 0x50, 0x45, 1, 0];
    assert_eq!(form_true_at(1, &[0, 1], &[], &[0, 1]), form);
}

#[test]
fn p4_parity_of_three() {
    let mut room = [9; 3];
    let found = lent_calls::analyse(3, &[1, 2, 4, 7], &[], &mut room);
    assert_eq!((found.refusal, found.degree), (0, 2));
    assert_eq!(found.basis, basis(&[3, 5]));
    assert_eq!(found.canonical, list(&[1, 2]));
    assert_eq!(found.equations, list(&[7]));
    assert_eq!(found.count, 1);
    assert_eq!(room, [1, 9, 9]);
    let mut room = [9; RECORD_LENGTH + 1];
    let found = lent_calls::list_primes(3, &[1, 2, 4, 7], &[], 0, u64::MAX, &mut room);
    assert_eq!(found, listed(51, 51, 1));
    assert_eq!(room, [2, 1, 3, 5, 0, 0, 0, 0, 4, 9]);
    let form = [0x4E, 3, 0x50, 0x58, 1, 7, 0, 0x45, 1, 0];
    assert_eq!(form_true_at(3, &[1, 2, 4, 7], &[], &[1, 2, 4, 7]), form);
}

#[test]
fn p5_four_variables() {
    let found = lent_calls::linear_space(4, &P5_ON);
    assert_eq!((found.refusal, found.degree), (0, 1));
    assert_eq!(found.basis, basis(&[3]));
    let mut room = [9; 6];
    let found = lent_calls::analyse(4, &P5_ON, &[], &mut room);
    assert_eq!((found.refusal, found.degree), (0, 1));
    assert_eq!(found.basis, basis(&[3]));
    assert_eq!(found.canonical, list(&[3]));
    assert_eq!(found.equations, list(&[8, 4, 3]));
    assert_eq!(found.count, 5);
    assert_eq!(room, [2, 3, 5, 6, 7, 9]);
    assert_eq!(form_true_at(4, &P5_ON, &[], &P5_ON), P5_FORM);
}

#[test]
fn p5_form_and_its_room() {
    for length in 0..=P5_FORM.len() + 1 {
        let fits = length >= P5_FORM.len();
        let mut room = vec![9; length];
        let found = lent_calls::write_form(4, &P5_ON, &[], &mut room);
        let numbers = (found.refusal, found.length, found.products);
        assert_eq!(numbers, if fits { (0, 19, 2) } else { (7, 0, 0) });
        let (front, rest) = room.split_at(found.length);
        assert_eq!(front, &P5_FORM[..found.length]);
        assert!(rest.iter().all(|&byte| byte == 9));
    }
}

#[test]
fn p5_report() {
    let bytes = stored::bytes_of(&(4, P5_ON.to_vec(), vec![]));
    let mut room = vec![9; P5_REPORT.len() + 1];
    let found = lent_calls::report(&bytes, &mut room);
    assert_eq!((found.refusal, found.length), (0, P5_REPORT.len()));
    assert_eq!(room, [P5_REPORT.as_bytes(), &[9]].concat());
}

/// Records of these counts and first products.
fn records<const N: usize>(pairs: [(u16, u16); N]) -> Vec<PointRecord> {
    let record = |(count, first)| PointRecord { count, first };
    pairs.map(record).to_vec()
}

/// The records of P5's form, and one more: x2 holds 4 to 7 and 12 to 15, and the other
/// product 4, 7, 9 and 10.
fn p5_records() -> Vec<PointRecord> {
    let none = (0, 65_535);
    let low = records([none, none, none, none, (2, 0), (1, 0), (1, 0), (2, 0)]);
    let middle = records([none, (1, 1), (1, 1), none]);
    let high = records([(1, 0), (1, 0), (1, 0), (1, 0), (7, 8)]);
    [low, middle, high].concat()
}

/// A product that holds 11 alone is appended and taken away.
#[test]
fn p5_index() {
    let mut expected = p5_records();
    let indexed = |length, products| Indexed {
        variables: 4,
        length,
        products,
        ..Default::default()
    };
    let mut list = records([(7, 8); 17]);
    let built = lent_calls::index_build(&P5_FORM, &mut list);
    assert_eq!((built, &list), (indexed(19, 2), &expected));
    let factors = [
        [0x58, 1, 8, 0],
        [0x58, 0, 4, 0],
        [0x58, 1, 2, 0],
        [0x58, 1, 1, 0],
    ];
    let product = [&[0x50], factors.as_flattened()].concat();
    let mut room = [9; 37];
    let appended = lent_calls::index_append(&P5_FORM, &product, &mut list, &mut room);
    let end = [0x45, 3, 0, 9];
    assert_eq!(room[..], [&P5_FORM[..16], &product, &end].concat());
    expected[11] = PointRecord { count: 1, first: 2 };
    assert_eq!((appended, &list), (indexed(36, 3), &expected));
    let mut back = [9; 20];
    let removed = lent_calls::index_remove(&room[..36], &mut list, &mut back);
    assert_eq!(back[..], [&P5_FORM[..], &[9]].concat());
    assert_eq!((removed, list), (indexed(19, 2), p5_records()));
}

#[test]
fn p6_five_primes() {
    let mut room = [9; 5 * RECORD_LENGTH + 1];
    let found = lent_calls::list_primes(3, &[2, 3, 5, 6, 7], &[], 0, u64::MAX, &mut room);
    assert_eq!(found, listed(51, 51, 5));
    let records: [[u8; RECORD_LENGTH]; 5] = [
        [2, 2, 1, 4, 0, 0, 0, 0, 4],
        [1, 2, 7, 0, 0, 0, 0, 0, 2],
        [1, 3, 6, 0, 0, 0, 0, 0, 2],
        [1, 5, 2, 0, 0, 0, 0, 0, 2],
        [1, 5, 3, 0, 0, 0, 0, 0, 2],
    ];
    assert_eq!(room, [&records.concat()[..], &[9]].concat()[..]);
    let points = [2, 3, 5, 6, 7];
    let form = [
        0x4E, 3, 0x50, 0x58, 1, 2, 0, 0x50, 0x58, 1, 6, 0, 0x58, 0, 5, 0, 0x45, 2, 0,
    ];
    assert_eq!(form_true_at(3, &points, &[], &points), form);
}

#[test]
fn p7_smallest_affine_space() {
    let mut room = [9; 6];
    let found = lent_calls::affine(4, &[2, 4, 6, 11, 13], &mut room);
    assert_eq!((found.refusal, found.least, found.dimension), (0, 0, 3));
    assert_eq!(found.basis, basis(&[2, 4, 9]));
    assert_eq!(found.count, 5);
    assert_eq!(room, [1, 2, 3, 5, 6, 9]);
}

#[test]
fn p8_a_degree_above_both() {
    let mut room = [9; 3];
    let found = lent_calls::complete(2, &[0], &[1, 2], &mut room);
    assert_eq!((found.refusal, found.degree, found.count), (0, 1, 2));
    assert_eq!((found.k0, found.k1), (0, 0));
    assert_eq!(room, [0, 1, 9]);
    let found = lent_calls::analyse(2, &[0], &[1, 2], &mut room);
    assert_eq!((found.refusal, found.degree), (0, 1));
    assert_eq!(found.basis, basis(&[1]));
    assert_eq!(found.canonical, list(&[2]));
    assert_eq!(found.equations, list(&[2]));
    assert_eq!((found.count, room), (1, [0, 1, 9]));
    let form = [0x4E, 2, 0x50, 0x58, 0, 2, 0, 0x45, 1, 0];
    assert_eq!(form_true_at(2, &[0], &[1, 2], &[0, 1]), form);
}

/// The table of source 003, Example 3: its space 3 9 comes after 3 8.
#[test]
fn the_free_points_of_the_paper() {
    let free = [0, 1, 2, 3, 11];
    let mut room = [9; 16];
    let found = lent_calls::complete(4, &P5_ON, &free, &mut room);
    assert_eq!((found.refusal, found.degree, found.count), (0, 2, 12));
    assert_eq!((found.k0, found.k1), (1, 0));
    let points = [1, 2, 4, 5, 6, 7, 9, 10, 12, 13, 14, 15];
    assert_eq!(room[..12], points);
    let found = lent_calls::analyse(4, &P5_ON, &free, &mut room);
    assert_eq!(found.basis, basis(&[3, 8]));
    form_true_at(4, &P5_ON, &free, &points);
}

/// The closure set is 0 1 2 4 6: grown from its least vector a space stops at 1.
#[test]
fn a_space_that_growth_misses() {
    let mut room = [9; 5];
    let found = lent_calls::complete(3, &[0], &[1, 2, 4, 6], &mut room);
    assert_eq!((found.refusal, found.degree, found.count), (0, 2, 4));
    assert_eq!((found.k0, found.k1), (0, 0));
    assert_eq!(room, [0, 2, 4, 6, 9]);
    let found = lent_calls::analyse(3, &[0], &[1, 2, 4, 6], &mut room);
    assert_eq!(found.basis, basis(&[2, 4]));
}

#[test]
fn p9_no_prime_and_the_end() {
    let mut room = [9; 8];
    let mut list = |place| lent_calls::list_primes(2, &[], &[0], place, u64::MAX, &mut room);
    assert_eq!(list(0), listed(11, 11, 0));
    assert_eq!(list(11), listed(11, 0, 0));
    let refused = Listed {
        refusal: 9,
        ..Default::default()
    };
    assert_eq!(list(12), refused);
    assert_eq!(room, [9; 8]);
    assert_eq!(form_true_at(2, &[], &[0], &[]), [0x4E, 2, 0x45, 0, 0]);
}
