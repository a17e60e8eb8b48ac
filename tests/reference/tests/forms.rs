//! Forms: reading, faults and their places, points, and the form written for a
//! table. Follows document 01, section "The written form", and document 02, No. 3.

use reference::completion;
use reference::cover;
use reference::form::{self, read_form, Factor, Form};
use reference::generate::{self, Generator};
use reference::primes;
use reference::refusal::*;
use reference::table::MOST_VARIABLES;
use std::collections::BTreeSet;

/// A form of four variables with one product of the given masks, as bytes.
fn one_product(masks: &[u16]) -> Vec<u8> {
    let factor = |&mask: &u16| Factor { constant: 1, mask };
    form::encode(&Form {
        variables: 4,
        products: vec![masks.iter().map(factor).collect()],
    })
}

#[test]
fn canonical_products() {
    assert!(read_form(&one_product(&[8, 6])).is_ok());
    assert!(read_form(&one_product(&[])).is_ok());
    let not_canonical = |place| Err(Refused::at(NOT_CANONICAL, place));
    assert_eq!(read_form(&one_product(&[8, 10])), not_canonical(8));
    assert_eq!(read_form(&one_product(&[4, 8])), not_canonical(8));
    assert_eq!(read_form(&one_product(&[12, 4])), not_canonical(8));
    assert_eq!(read_form(&one_product(&[4, 4])), not_canonical(8));
    assert_eq!(read_form(&one_product(&[8, 6, 3])), not_canonical(12));
    assert_eq!(read_form(&one_product(&[8, 4, 9])), not_canonical(12));
}

#[test]
fn there_is_one_canonical_product_for_each_pseudocube() {
    for n in 1..=6 {
        let mut seen = BTreeSet::new();
        for cube in primes::candidates(n) {
            let product = cover::canonical_product(n, cube);
            assert!(form::is_canonical(&product));
            assert_eq!(product.len(), n - cube.basis.len());
            let points = (0..1u16 << n).filter(|&point| form::product_holds(&product, point));
            assert_eq!(primes::set_of(&points.collect::<Vec<u16>>()), cube.members);
            seen.insert(cube.members);
        }
        assert_eq!(seen.len(), primes::candidates(n).len());
    }
}

#[test]
fn places_of_faults() {
    let fault = |bytes: &[u8]| {
        let Refused { refusal, place } = read_form(bytes).expect_err("a fault");
        (refusal, place)
    };
    assert_eq!(fault(&[]), (BYTES_MISSING, 0));
    assert_eq!(fault(&[0x4D, 4]), (WRONG_KIND, 0));
    assert_eq!(fault(&[0x4E]), (BYTES_MISSING, 1));
    assert_eq!(fault(&[0x4E, 0]), (WRONG_VARIABLES, 1));
    let above = MOST_VARIABLES as u8 + 1;
    assert_eq!(fault(&[0x4E, above]), (WRONG_VARIABLES, 1));
    assert_eq!(fault(&[0x4E, 4, 0x58, 1, 1, 0]), (WRONG_KIND, 2));
    assert_eq!(fault(&[0x4E, 4, 0x4F, 1, 0]), (WRONG_KIND, 2));
    assert_eq!(fault(&[0x4E, 4, 0x50, 0x58, 2]), (BYTES_MISSING, 5));
    let bad_constant = [0x4E, 4, 0x50, 0x58, 2, 4, 0];
    assert_eq!(fault(&bad_constant), (WRONG_FACTOR, 4));
    let bad_mask = [0x4E, 4, 0x50, 0x58, 1, 16, 0];
    assert_eq!(fault(&bad_mask), (WRONG_FACTOR, 4));
    let no_mask = [0x4E, 4, 0x50, 0x58, 1, 0, 0];
    assert_eq!(fault(&no_mask), (WRONG_FACTOR, 4));
    let both = [0x4E, 4, 0x50, 0x58, 1, 4, 0, 0x58, 2, 4, 0];
    assert_eq!(fault(&both), (WRONG_FACTOR, 8));
    assert_eq!(fault(&[0x4E, 4, 0x45, 1, 0, 0]), (WRONG_COUNT, 3));
    assert_eq!(fault(&[0x4E, 4, 0x45, 0, 0, 0]), (BYTES_AFTER, 5));
}

/// A product too many stands at its kind byte, whatever comes after it.
#[test]
fn sixty_four_products_and_more() {
    let form = |products| Form {
        variables: 1,
        products: vec![Vec::new(); products],
    };
    assert_eq!(read_form(&form::encode(&form(64))), Ok(form(64)));
    let too_many = Err(Refused::at(TOO_MANY_PRODUCTS, 66));
    for products in [65, 66, 128, 320] {
        let bytes = form::encode(&form(products));
        assert_eq!(read_form(&bytes), too_many);
        assert_eq!(read_form(&bytes[..67]), too_many);
    }
    let mut bytes = form::encode(&form(65));
    bytes[66] = 0x4F;
    assert_eq!(read_form(&bytes), Err(Refused::at(WRONG_KIND, 66)));
}

/// Whether a form is right as a value: n, factors and products.
fn is_right(form: &Form) -> bool {
    let products = &form.products;
    let in_range = |factor: &Factor| {
        factor.constant <= 1 && (1..1u32 << form.variables).contains(&factor.mask.into())
    };
    (1..=MOST_VARIABLES).contains(&form.variables)
        && products.len() <= 64
        && products
            .iter()
            .all(|product| product.iter().all(in_range) && form::is_canonical(product))
}

/// What bytes are read as gives the same bytes when written. Bytes are missing at
/// the length; any other fault stands at a byte, and with that byte and all behind it
/// cut off the bytes are a form, or bytes are missing there.
fn check_bytes(bytes: &[u8]) {
    let Refused { refusal, place } = match read_form(bytes) {
        Ok(form) => {
            assert!(is_right(&form));
            assert_eq!(form::encode(&form), bytes);
            return;
        }
        Err(refused) => refused,
    };
    assert!(place <= bytes.len());
    assert_eq!(refusal == BYTES_MISSING, place == bytes.len());
    let before = read_form(&bytes[..place]);
    match refusal {
        BYTES_AFTER => assert!(before.is_ok()),
        _ => assert_eq!(before, Err(Refused::at(BYTES_MISSING, place))),
    }
}

#[test]
fn reading_and_writing_random_and_damaged_forms() {
    let mut generator = Generator::new(8);
    for n in 1..=MOST_VARIABLES {
        for products in [0, 1, 2, 5] {
            let form = generate::random_form(&mut generator, n, products);
            assert!(is_right(&form));
            let bytes = form::encode(&form);
            assert_eq!(read_form(&bytes), Ok(form));
            generate::every_changed_byte(&bytes).for_each(|damaged| check_bytes(&damaged));
            generate::extensions(&bytes).for_each(|damaged| check_bytes(&damaged));
            for cut in generate::cuts(&bytes) {
                let missing = Refused::at(BYTES_MISSING, cut.len());
                assert_eq!(read_form(&cut), Err(missing));
            }
            for damaged in generate::wrong_counts(&bytes) {
                let wrong_count = Refused::at(WRONG_COUNT, bytes.len() - 2);
                assert_eq!(read_form(&damaged), Err(wrong_count));
            }
        }
    }
    for _ in 0..50_000 {
        check_bytes(&generate::random_records(&mut generator, 6));
    }
}

/// The form written for a table has the completed function's points, reads back
/// as it is, and takes no more products and bytes than it can need.
fn check_written_form(n: usize, on: &[u16], free: &[u16]) {
    let (points, degree, _, _) = completion::complete(n, on, free);
    let written = form::write_form(n, on, free);
    if n - degree > 6 {
        assert_eq!(written, Err(5));
        return;
    }
    let form = written.expect("a form of at most six variables");
    assert!(is_right(&form));
    assert_eq!(form::points(&form), points);
    let bytes = form::encode(&form);
    assert!(bytes.len() <= 1307);
    assert_eq!(read_form(&bytes), Ok(form));
}

#[test]
fn forms_of_every_table_of_up_to_three_variables() {
    for n in 1..=3 {
        let full = (1u64 << (1 << n)) - 1;
        for on in 0..=full {
            for free in (0..=full).filter(|free| free & on == 0) {
                check_written_form(n, &primes::points_of(on), &primes::points_of(free));
            }
        }
    }
}

#[test]
fn forms_of_random_tables() {
    let mut generator = Generator::new(9);
    for n in 1..=12usize {
        for kept in 0..=n.min(7) {
            let table = generate::closed_table(&mut generator, n, n - kept, 50);
            check_written_form(n, &table.1, &[]);
            let (_, on, free) = generate::with_free_points(&mut generator, &table, 10);
            check_written_form(n, &on, &free);
        }
    }
}

#[test]
fn canonical_variables_may_cancel() {
    let on = [1, 4, 6, 8, 10, 13, 17, 19, 20, 24, 29, 31];
    let form = form::write_form(5, &on, &[]).expect("three variables are kept");
    let masks: Vec<Vec<u16>> = form
        .products
        .iter()
        .map(|product| product.iter().map(|factor| factor.mask).collect())
        .collect();
    assert_eq!(masks, [[2, 13], [30, 13]]);
}
