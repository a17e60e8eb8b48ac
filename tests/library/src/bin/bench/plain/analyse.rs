//! The analysis call in plain Rust. Follows document 01, section "Points and
//! spaces".

use super::basis::{lead, leads};
use super::complete::{completed, Completed};
use super::places::without;
use super::table::{write, Flags};
use library::{Analysis, Basis, ShortList};

/// A number at the end of a short list.
fn push(list: &mut ShortList, value: u16) {
    list.values[list.len] = value;
    list.len += 1;
}

/// The mask of the equation of a noncanonical variable, given by its bit.
fn equation(basis: &Basis, bit: u16) -> u16 {
    let vectors = &basis.vectors[..basis.len];
    let holders = vectors.iter().filter(|&&vector| vector & bit != 0);
    holders.fold(bit, |mask, &vector| mask ^ lead(vector))
}

/// Canonical variables by index, and the masks of the equations.
pub fn variables(n: usize, basis: &Basis, leads: u16) -> (ShortList, ShortList) {
    let (mut canonical, mut equations) = (ShortList::default(), ShortList::default());
    for index in 1..=n {
        let bit = 1u16 << (n - index);
        if leads & bit != 0 {
            push(&mut canonical, index as u16);
        } else {
            push(&mut equations, equation(basis, bit));
        }
    }
    (canonical, equations)
}

/// The points of the restriction, rising.
pub fn restriction<'a>(
    n: usize,
    flags: &'a Flags,
    leads: u16,
) -> impl Iterator<Item = u16> + Clone + 'a {
    let points = 0..1u16 << n;
    let chosen = points.filter(move |&point| point & leads == 0 && flags[usize::from(point)]);
    chosen.map(move |point| without(leads, point))
}

fn try_analyse(n: usize, on: &[u16], free: &[u16], room: &mut [u16]) -> Result<Analysis, u8> {
    let Completed { flags, basis, .. } = completed(n, on, free)?;
    let leads = leads(&basis);
    let points = restriction(n, &flags, leads);
    let count = points.clone().count();
    write(points, count, room)?;
    let (canonical, equations) = variables(n, &basis, leads);
    Ok(Analysis {
        refusal: 0,
        degree: basis.len,
        basis,
        canonical,
        equations,
        count,
    })
}

/// The call.
pub fn analyse(n: usize, on: &[u16], free: &[u16], room: &mut [u16]) -> Analysis {
    try_analyse(n, on, free, room).unwrap_or_else(|refusal| Analysis {
        refusal,
        ..Analysis::default()
    })
}
