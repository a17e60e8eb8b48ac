//! The products of the form of a completed function: those of the chosen primes,
//! with the reduction equations put in. Follows document 01, section "The written
//! form".

use super::analyse::{restriction, variables};
use super::bases::MOST_VARIABLES;
use super::basis::leads;
use super::choice::{choose, Prime};
use super::complete::Completed;
use library::{Basis, ShortList};

/// A product: constants and masks of its factors, in form order.
#[derive(Clone, Copy, Default)]
pub struct Product {
    pub constants: ShortList,
    pub masks: ShortList,
}

/// The basis of a prime by value.
fn basis_of(prime: &Prime) -> Basis {
    let mut basis = Basis::default();
    for &vector in &prime.entry.vectors[..prime.degree] {
        basis.vectors[basis.len] = u16::from(vector);
        basis.len += 1;
    }
    basis
}

/// The XOR of the equations of the variables that a mask has, the first highest.
fn substituted(equations: &ShortList, mask: u16) -> u16 {
    let mut sum = 0;
    for (place, &equation) in equations.values[..equations.len].iter().rev().enumerate() {
        if mask >> place & 1 == 1 {
            sum ^= equation;
        }
    }
    sum
}

/// The product of one prime of so many variables.
fn product_of(prime: &Prime, kept: usize, equations: &ShortList) -> Product {
    let basis = basis_of(prime);
    let (_, masks) = variables(kept, &basis, leads(&basis));
    let mut product = Product::default();
    for (place, &mask) in masks.values[..masks.len].iter().enumerate() {
        product.constants.values[place] = ((mask & prime.least).count_ones() % 2) as u16;
        product.masks.values[place] = substituted(equations, mask);
    }
    product.constants.len = masks.len;
    product.masks.len = masks.len;
    product
}

/// The products of the form of a completed function; refusal 5 if it keeps more
/// than six variables.
pub fn products(
    n: usize,
    completed: &Completed,
    equations: &ShortList,
) -> Result<Vec<Product>, u8> {
    let kept = n - completed.basis.len;
    if kept > MOST_VARIABLES {
        return Err(5);
    }
    let points = restriction(n, &completed.flags, leads(&completed.basis));
    let on = points.fold(0, |set: u64, point| set | 1 << point);
    let primes = choose(on, kept);
    let products = primes
        .iter()
        .map(|prime| product_of(prime, kept, equations));
    Ok(products.collect())
}
