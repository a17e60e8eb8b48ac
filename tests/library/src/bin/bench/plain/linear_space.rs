//! The linear space call in plain Rust. Follows document 01, section "Points and
//! spaces".

use super::basis::{full, insert, leads};
use super::table::{checked, Flags};
use library::{Basis, LinearSpace};

/// The first vector, of those given, and the first point, of those below 2^n,
/// that break closure.
fn first_witness(flags: &Flags, n: usize, vectors: &[u16]) -> Option<(u16, usize)> {
    let points = &flags[..1 << n];
    for &vector in vectors {
        for (point, &flag) in points.iter().enumerate() {
            if flag != points[point ^ usize::from(vector)] {
                return Some((vector, point));
            }
        }
    }
    None
}

/// The reduced basis of all vectors under which the function is closed.
pub fn space_of(flags: &Flags, n: usize) -> Basis {
    let units = full(n);
    let Some((first, _)) = first_witness(flags, n, &units.vectors[..n]) else {
        return units;
    };
    let mut basis = full(first.ilog2() as usize);
    let mut mask = leads(&basis);
    for vector in first + 1..1 << n {
        if vector & mask == 0 {
            if first_witness(flags, n, &[vector]).is_none() {
                basis = insert(basis, vector);
            }
            mask = leads(&basis);
        }
    }
    basis
}

fn try_linear_space(n: usize, on: &[u16]) -> Result<LinearSpace, u8> {
    let basis = space_of(&checked(n, on, &[])?, n);
    Ok(LinearSpace {
        refusal: 0,
        degree: basis.len,
        basis,
    })
}

/// The call.
pub fn linear_space(n: usize, on: &[u16]) -> LinearSpace {
    try_linear_space(n, on).unwrap_or_else(|refusal| LinearSpace {
        refusal,
        ..LinearSpace::default()
    })
}
