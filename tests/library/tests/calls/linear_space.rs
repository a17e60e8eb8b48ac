//! The linear space call compared with the reference. Follows document 01,
//! section "Points and spaces".

use crate::lent::Lent;
use crate::lent_calls;
use crate::lists;
use crate::tables;
use crate::tally::Tally;
use glospruma::MAX_VARIABLES;
use library::settings::some;
use library::LinearSpace;
use reference::calls;
use reference::generate::{self, Generator};
use reference::numbers::{ShortList, SpaceNumbers};

/// The numbers of the call in the reference's words.
pub fn numbers(found: &LinearSpace) -> SpaceNumbers {
    SpaceNumbers {
        refusal: found.refusal,
        degree: found.degree,
        basis: ShortList {
            length: found.basis.len,
            entries: found.basis.vectors,
        },
    }
}

/// Makes the call and compares its numbers and the memory; hands back the degree.
fn compare(tally: &mut Tally, n: usize, on: &[u16]) -> usize {
    let lent = Lent::holding(on);
    let found = library::linear_space(n, lent.part());
    lent.assert_as_lent();
    assert_eq!(
        numbers(&found),
        calls::linear_space(n, on),
        "n {n}, on {on:?}"
    );
    tally.add(found.refusal);
    found.degree
}

#[test]
fn every_small_table() {
    let mut tally = Tally::new("linear space, every small table");
    for (n, on, _) in tables::small_tables() {
        compare(&mut tally, n, &on);
    }
    for on in tables::functions_of_four() {
        compare(&mut tally, 4, &on);
    }
    tally.finish(&[0]);
}

#[test]
fn random_and_known_tables() {
    let mut tally = Tally::new("linear space, random and known tables");
    for (n, on, _) in tables::random_tables(100).chain(tables::known_tables()) {
        compare(&mut tally, n, &on);
    }
    tally.finish(&[0]);
}

/// For each n, functions of every degree from 0 to n come up.
#[test]
fn every_degree() {
    let mut tally = Tally::new("linear space, every degree");
    let mut generator = Generator::new(101);
    let degrees = (1..=MAX_VARIABLES).flat_map(|n| (0..=n).map(move |degree| (n, degree)));
    for (n, degree) in some(degrees) {
        let mut tries = 0..1000;
        let found = tries.any(|_| {
            let (_, on, _) = generate::closed_table(&mut generator, n, degree, 50);
            compare(&mut tally, n, &on) == degree
        });
        assert!(found, "no function of {n} variables with degree {degree}");
    }
    tally.finish(&[0]);
}

#[test]
fn faulty_lists() {
    let mut tally = Tally::new("linear space, faulty lists");
    for (n, on) in lists::singles() {
        compare(&mut tally, n, &on);
    }
    for (n, on, free, refusal) in lists::ORDERED {
        compare(&mut tally, n, on);
        if free.is_empty() {
            assert_eq!(lent_calls::linear_space(n, on).refusal, refusal);
        }
    }
    tally.finish(&[0, 1, 2, 3]);
}
