//! The safe calls of the Rust package compared with its raw ones, which the other
//! tests compare with the reference: an answer has the same numbers and the front
//! of the room, and a refusal its number, with its place from a call that reads
//! bytes. Follows document 01, section "Refusal numbers", and document 02, No. 1, No. 3
//! and No. 5.

use crate::compare::stored_pairs;
use crate::guarded::{some_bytes, some_tables};
use crate::lent::{Entry, Lent};
use crate::lent_calls;
use crate::stored;
use glospruma::{Difference, Index, Refusal, Refused, NO_PRODUCT};
use glospruma::{COMPARISON_ROOM, DIFFERENCE_LENGTH, RECORD_LENGTH};
use glospruma::{MAX_LISTED, MAX_POINTS, MAX_VARIABLES, TABLE_LENGTH};
use library::{Affine, Analysis, Comparison, Completion, FormPoints, FormRewrite};
use library::{FormWritten, Indexed, LinearSpace, Listed, PointRecord, Report, TableRead};
use reference::calls;
use reference::table::{Table, LONGEST_STORED, MOST_POINTS, MOST_VARIABLES};
use std::fmt::Debug;

/// Lengths of rooms for points, and for bytes, long enough or not.
const ROOMS: [usize; 4] = [0, 5, 60, 30_000];

/// Compares the numbers of a raw call with those of a safe one: either those made
/// from its answer, or those of its refusal.
fn compare<A, E, N: PartialEq + Debug>(
    raw: N,
    safe: Result<A, E>,
    accepted: impl FnOnce(A) -> N,
    refused: impl FnOnce(E) -> N,
) {
    match safe {
        Ok(answer) => assert_eq!(accepted(answer), raw),
        Err(error) => assert_eq!(refused(error), raw),
    }
}

/// Numbers of a refused call: all others are 0.
macro_rules! refused {
    ($numbers:ident) => {
        |refusal: Refusal| $numbers {
            refusal: refusal.into(),
            ..Default::default()
        }
    };
}

/// Numbers of a refused call that reads bytes: all but the place are 0.
macro_rules! refused_at {
    ($numbers:ident) => {
        |Refused { refusal, place }: Refused| $numbers {
            refusal: refusal.into(),
            place,
            ..Default::default()
        }
    };
}

/// A room of so many entries for a raw call, and one with the same entries for a
/// safe one.
fn equal_rooms<E: Entry>(length: usize) -> (Vec<E>, Lent<E>) {
    let lent = Lent::room(length);
    (lent.part().to_vec(), lent)
}

fn spaces((n, on, free): &Table, length: usize) {
    let (mut room, mut other) = equal_rooms(length);
    let (on, free) = (Lent::holding(on), Lent::holding(free));
    let (on, free) = (on.part(), free.part());
    let raw = lent_calls::linear_space(*n, on);
    let linear = |found: glospruma::LinearSpace| LinearSpace {
        refusal: 0,
        degree: found.degree,
        basis: found.basis,
    };
    let safe = glospruma::linear_space(*n, on);
    compare(raw, safe, linear, refused!(LinearSpace));
    let raw = lent_calls::complete(*n, on, free, &mut room);
    let completed = |found: glospruma::Completion| {
        assert_eq!(found.points, &room[..raw.count]);
        Completion {
            refusal: 0,
            count: found.points.len(),
            degree: found.degree,
            k0: found.k0,
            k1: found.k1,
        }
    };
    let safe = glospruma::complete(*n, on, free, other.part_mut());
    compare(raw, safe, completed, refused!(Completion));
    let raw = lent_calls::analyse(*n, on, free, &mut room);
    let analysed = |found: glospruma::Analysis| {
        assert_eq!(found.restriction, &room[..raw.count]);
        Analysis {
            refusal: 0,
            degree: found.degree,
            basis: found.basis,
            canonical: found.canonical,
            equations: found.equations,
            count: found.restriction.len(),
        }
    };
    let safe = glospruma::analyse(*n, on, free, other.part_mut());
    compare(raw, safe, analysed, refused!(Analysis));
    let raw = lent_calls::affine(*n, on, &mut room);
    let smallest = |found: glospruma::AffineSpace| {
        assert_eq!(found.projection, &room[..raw.count]);
        Affine {
            refusal: 0,
            least: found.least,
            dimension: found.dimension,
            basis: found.basis,
            count: found.projection.len(),
        }
    };
    let safe = glospruma::affine(*n, on, other.part_mut());
    compare(raw, safe, smallest, refused!(Affine));
    other.assert_front(&room);
}

/// The points of a prime: its least point XOR every choice of its vectors.
fn points_of(prime: &glospruma::Prime) -> Vec<u16> {
    let mut points = vec![u16::from(prime.least)];
    for &vector in prime.basis {
        let moved: Vec<u16> = points
            .iter()
            .map(|&point| point ^ u16::from(vector))
            .collect();
        points.extend(moved);
    }
    points
}

fn primes_and_form((n, on, free): &Table, length: usize) {
    let (mut room, mut other) = equal_rooms(length);
    let (on, free) = (Lent::holding(on), Lent::holding(free));
    let (on, free) = (on.part(), free.part());
    for (place, allowance) in [(0, u64::MAX), (3, 40), (60, 1)] {
        let raw = lent_calls::list_primes(*n, on, free, place, allowance, &mut room);
        let listed = |found: glospruma::Listing| {
            assert_eq!(found.records, &room[..RECORD_LENGTH * raw.records]);
            for prime in found.primes() {
                assert_eq!(prime.basis.len(), usize::from(prime.degree));
                let points = points_of(&prime).into_iter();
                let on_points = points.filter(|point| on.contains(point));
                assert_eq!(on_points.count(), usize::from(prime.on_count));
            }
            Listed {
                refusal: 0,
                next: found.next,
                passed: found.passed,
                records: found.primes().count(),
            }
        };
        let safe = glospruma::list_primes(*n, on, free, place, allowance, other.part_mut());
        compare(raw, safe, listed, refused!(Listed));
    }
    let raw = lent_calls::write_form(*n, on, free, &mut room);
    let written = |found: glospruma::WrittenForm| {
        assert_eq!(found.bytes, &room[..raw.length]);
        FormWritten {
            refusal: 0,
            length: found.bytes.len(),
            products: found.products,
        }
    };
    let safe = glospruma::write_form(*n, on, free, other.part_mut());
    compare(raw, safe, written, refused!(FormWritten));
    other.assert_front(&room);
}

fn stored_table(bytes: &[u8], length: usize) {
    let (mut on, mut other_on) = equal_rooms(length);
    let (mut free, mut other_free) = equal_rooms(length);
    let raw = lent_calls::read_table(bytes, &mut on, &mut free);
    let read = |found: glospruma::Table| {
        assert_eq!(found.on, &on[..raw.on_count]);
        assert_eq!(found.free, &free[..raw.free_count]);
        TableRead {
            refusal: 0,
            place: 0,
            variables: found.variables,
            on_count: found.on.len(),
            free_count: found.free.len(),
        }
    };
    let (safe_on, safe_free) = (other_on.part_mut(), other_free.part_mut());
    let safe = glospruma::read_table(Lent::holding(bytes).part(), safe_on, safe_free);
    compare(raw, safe, read, refused_at!(TableRead));
    other_on.assert_front(&on);
    other_free.assert_front(&free);
}

/// The record that a difference was made from.
fn record_of(difference: Difference) -> [u8; DIFFERENCE_LENGTH] {
    let [low, high] = difference.point.to_le_bytes();
    [low, high, difference.left.into(), difference.right.into()]
}

fn comparison(left: &[u8], right: &[u8], length: usize) {
    let (mut room, mut other) = equal_rooms(length);
    let (left, right) = (Lent::holding(left), Lent::holding(right));
    let (left, right) = (left.part(), right.part());
    for first in [0, 3, usize::MAX] {
        let raw = lent_calls::compare(left, right, first, &mut room);
        let compared = |found: glospruma::Comparison| {
            let records: Vec<u8> = found.differences().flat_map(record_of).collect();
            assert_eq!(records, found.records);
            assert_eq!(records, room[..DIFFERENCE_LENGTH * raw.records]);
            Comparison {
                refusal: 0,
                place: 0,
                records: found.differences().len(),
                next: found.next,
                total: found.total,
            }
        };
        let safe = glospruma::compare(left, right, first, other.part_mut());
        compare(raw, safe, compared, refused_at!(Comparison));
    }
    other.assert_front(&room);
}

/// All differences, with no room to lend, compared with the reference.
fn differences(left: &[u8], right: &[u8]) {
    let mut room = vec![0; COMPARISON_ROOM];
    let expected = calls::compare(left, right, 0, &mut room);
    let (left, right) = (Lent::holding(left), Lent::holding(right));
    match glospruma::differences(left.part(), right.part()) {
        Ok(found) => {
            assert_eq!(
                (found.total(), found.len()),
                (expected.total, expected.total)
            );
            let records: Vec<u8> = found.flat_map(record_of).collect();
            assert_eq!(records, room[..DIFFERENCE_LENGTH * expected.total]);
            assert_eq!(expected.refusal, 0);
        }
        Err(Refused { refusal, place }) => {
            assert_eq!(u8::from(refusal), expected.refusal);
            assert_eq!(place, expected.place);
        }
    }
}

fn form_and_report(bytes: &[u8], length: usize) {
    let lent = Lent::holding(bytes);
    let bytes = lent.part();
    let (mut points, mut other_points) = equal_rooms(length);
    let raw = lent_calls::form_points(bytes, &mut points);
    let read = |found: glospruma::FormPoints| {
        assert_eq!(found.points, &points[..raw.count]);
        FormPoints {
            variables: found.variables,
            count: found.points.len(),
            ..FormPoints::default()
        }
    };
    let safe = glospruma::form_points(bytes, other_points.part_mut());
    compare(raw, safe, read, refused_at!(FormPoints));
    let (mut room, mut other) = equal_rooms(length);
    let raw = lent_calls::form_rewrite(bytes, &mut room);
    let rewritten = |found: glospruma::RewrittenForm| {
        assert_eq!(found.bytes, &room[..raw.length]);
        FormRewrite {
            length: found.bytes.len(),
            ..FormRewrite::default()
        }
    };
    let safe = glospruma::form_rewrite(bytes, other.part_mut());
    compare(raw, safe, rewritten, refused_at!(FormRewrite));
    let raw = lent_calls::report(bytes, &mut room);
    let reported = |found: glospruma::Report| {
        assert_eq!(found.text.as_bytes(), &room[..raw.length]);
        Report {
            refusal: 0,
            length: found.text.len(),
        }
    };
    let safe = glospruma::report(bytes, other.part_mut());
    compare(raw, safe, reported, refused!(Report));
    other_points.assert_front(&points);
    other.assert_front(&room);
}

/// What a safe call on an index gives; every point must be found as its record says,
/// and no other.
fn indexed(found: Index) -> Indexed {
    assert_eq!(found.records.len(), 1 << found.variables);
    for (point, record) in (0..).zip(found.records) {
        let holders = found.lookup(point).expect("a point of the form");
        let as_record = holders.map_or(PointRecord::default(), |holders| PointRecord {
            count: holders.count as u16,
            first: holders.first as u16,
        });
        assert_eq!(as_record, *record, "point {point}");
    }
    assert_eq!(found.lookup(1 << found.variables), Err(Refusal::Point));
    Indexed {
        refusal: 0,
        place: 0,
        variables: found.variables,
        length: found.form.len(),
        products: found.products,
    }
}

/// The calls on an index of bytes as a form: the list is built, changed by a product
/// and changed back.
fn indices(bytes: &[u8], length: usize) {
    let lent = Lent::holding(bytes);
    let bytes = lent.part();
    let (mut list, mut other_list) = equal_rooms(length.min(MAX_POINTS));
    let raw = lent_calls::index_build(bytes, &mut list);
    let safe = glospruma::index_build(bytes, other_list.part_mut());
    compare(raw, safe, indexed, refused_at!(Indexed));
    let (mut room, mut other) = equal_rooms(length);
    let mut changed = 0;
    for product in [&[0x50, 0x58, 1, 1, 0][..], &[0x50, 0x58, 1]] {
        let raw = lent_calls::index_append(bytes, product, &mut list, &mut room);
        let (list, other) = (other_list.part_mut(), other.part_mut());
        let appended = |found: Index| {
            assert_eq!(found.form, &room[..raw.length]);
            indexed(found)
        };
        let safe = glospruma::index_append(bytes, product, list, other);
        compare(raw, safe, appended, refused_at!(Indexed));
        changed = changed.max(raw.length);
    }
    other.assert_front(&room);
    let form = if changed > 0 { &room[..changed] } else { bytes };
    let (mut back, mut other_back) = equal_rooms(length);
    let raw = lent_calls::index_remove(form, &mut list, &mut back);
    let removed = |found: Index| {
        assert_eq!(found.form, &back[..raw.length]);
        indexed(found)
    };
    let safe = glospruma::index_remove(form, other_list.part_mut(), other_back.part_mut());
    compare(raw, safe, removed, refused_at!(Indexed));
    other_list.assert_front(&list);
    other_back.assert_front(&back);
}

#[test]
fn tables() {
    for table in some_tables() {
        for length in ROOMS {
            spaces(&table, length);
            primes_and_form(&table, length);
        }
    }
}

#[test]
fn bytes() {
    for bytes in some_bytes() {
        for length in ROOMS {
            stored_table(&bytes, length);
            form_and_report(&bytes, length);
            indices(&bytes, length);
        }
    }
}

/// Bytes beside a table without points, and pairs of tables.
#[test]
fn pairs() {
    let beside_empty = some_bytes().map(|bytes| {
        let empty = stored::empty_beside(&bytes);
        (bytes, empty)
    });
    for (left, right) in beside_empty.chain(stored_pairs(230).step_by(19)) {
        for length in ROOMS {
            comparison(&left, &right, length);
        }
        differences(&left, &right);
    }
}

/// The package's numbers, which these tests go by, are the reference's own.
#[test]
fn numbers_of_the_reference() {
    assert_eq!(MAX_VARIABLES, MOST_VARIABLES);
    assert_eq!(MAX_POINTS, MOST_POINTS);
    assert_eq!(TABLE_LENGTH, LONGEST_STORED);
    assert_eq!(MAX_LISTED, reference::primes::MOST_LISTED);
    assert_eq!(RECORD_LENGTH, reference::primes::RECORD_LENGTH);
    assert_eq!(DIFFERENCE_LENGTH, reference::compare::DIFFERENCE_LENGTH);
    assert_eq!(NO_PRODUCT, reference::index::NO_PRODUCT);
}
