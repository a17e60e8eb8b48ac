//! The form written for a table: primes of the completed function's
//! restriction that cover it, with the reduction equations put in.
//! Follows document 01, section "The written form", last paragraph.

use crate::completion;
use crate::form::{self, Factor, Form, Product};
use crate::primes::{self, Pseudocube};
use crate::refusal;
use crate::space;
use crate::table;

/// The primes taken: for each point, rising, that isn't covered yet, the first
/// prime in listing order that holds it.
pub fn cover(variables: usize, points: &[u16]) -> Vec<Pseudocube> {
    let all_primes = primes::primes(variables, points, &[]);
    let mut covered = 0u64;
    let mut taken = Vec::new();
    for &point in points {
        if covered >> point & 1 == 1 {
            continue;
        }
        let mut holders = all_primes
            .iter()
            .filter(|cube| cube.members >> point & 1 == 1);
        let first = holders.next().expect("each on point lies in some prime");
        covered |= first.members;
        taken.push(first.clone());
    }
    taken
}

/// The canonical product of a pseudocube, from the definitions: of all masks
/// that have one parity on the whole set, for each lowest bit that occurs, the
/// one with this lowest bit and no other such bit; lowest bits fall.
pub fn canonical_product(variables: usize, cube: &Pseudocube) -> Product {
    let is_constant = |mask: u16| {
        let mut vectors = cube.basis.iter();
        vectors.all(|&vector| form::parity(mask, vector) == 0)
    };
    let masks: Vec<u16> = (1..1u16 << variables)
        .filter(|&mask| is_constant(mask))
        .collect();
    let lowest_bits = masks
        .iter()
        .fold(0, |all, &mask| all | form::lowest_bit(mask));
    let mut chosen: Vec<u16> = masks
        .into_iter()
        .filter(|&mask| mask & lowest_bits == form::lowest_bit(mask))
        .collect();
    chosen.sort_by_key(|&mask| std::cmp::Reverse(form::lowest_bit(mask)));
    let factor = |mask| Factor {
        constant: form::parity(mask, cube.least),
        mask,
    };
    chosen.into_iter().map(factor).collect()
}

/// A product in the y's with the reduction equations put in.
pub fn put_equations_in(product: &[Factor], equations: &[u16]) -> Product {
    let mut substituted = Vec::new();
    for factor in product {
        let indices = space::variables_of(equations.len(), factor.mask);
        let mask = indices
            .iter()
            .fold(0, |mask, index| mask ^ equations[index - 1]);
        let constant = factor.constant;
        substituted.push(Factor { constant, mask });
    }
    substituted
}

/// The form written for a table. Refusals 1 to 5; 7 is the caller's, who knows
/// the room.
pub fn write_form(n: usize, on: &[u16], free: &[u16]) -> Result<Form, u8> {
    table::check(n, on, free)?;
    let (points, degree, _, _) = completion::complete(n, on, free);
    let kept = n - degree;
    if kept > primes::MOST_LISTED {
        return Err(refusal::ABOVE_SIX_VARIABLES);
    }
    let basis = space::linear_space(n, &points);
    let equations = space::equations(n, &basis);
    let restriction = space::restriction(n, &points, &basis);
    let mut products = Vec::new();
    for cube in cover(kept, &restriction) {
        let product = canonical_product(kept, &cube);
        products.push(put_equations_in(&product, &equations));
    }
    Ok(Form {
        variables: n,
        products,
    })
}
