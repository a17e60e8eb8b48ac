//! Reduced bases by value. Follows document 01, section "Points and spaces".

use library::Basis;

/// The full basis of n variables.
pub fn full(n: usize) -> Basis {
    let mut basis = Basis::default();
    for place in 0..n {
        basis.vectors[place] = 1 << place;
    }
    basis.len = n;
    basis
}

/// The vector with each lead bit of the basis cleared; 0 if it is in the span.
pub fn reduce(basis: &Basis, vector: u16) -> u16 {
    let mut rest = vector;
    for &entry in &basis.vectors[..basis.len] {
        rest = rest.min(rest ^ entry);
    }
    rest
}

/// The basis with one vector more put in; one in the span changes nothing.
pub fn insert(basis: Basis, vector: u16) -> Basis {
    let rest = reduce(&basis, vector);
    if rest == 0 {
        return basis;
    }
    let mut grown = basis;
    for entry in &mut grown.vectors[..basis.len] {
        *entry = (*entry).min(*entry ^ rest);
    }
    let mut place = basis.len;
    while place > 0 && grown.vectors[place - 1] > rest {
        grown.vectors[place] = grown.vectors[place - 1];
        place -= 1;
    }
    grown.vectors[place] = rest;
    grown.len += 1;
    grown
}

/// The highest set bit of a vector that isn't 0.
pub fn lead(vector: u16) -> u16 {
    0x8000 >> vector.leading_zeros()
}

/// All lead bits of a basis together.
pub fn leads(basis: &Basis) -> u16 {
    let vectors = &basis.vectors[..basis.len];
    vectors.iter().fold(0, |all, &vector| all | lead(vector))
}
