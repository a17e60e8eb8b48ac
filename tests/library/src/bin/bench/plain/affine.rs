//! The call on the smallest affine space in plain Rust. Follows document 01,
//! section "Points and spaces".

use super::basis::{insert, leads, reduce};
use super::places::without;
use super::table::{checked, write};
use library::{Affine, Basis};

fn try_affine(n: usize, on: &[u16], room: &mut [u16]) -> Result<Affine, u8> {
    checked(n, on, &[])?;
    let &first = on.first().ok_or(6)?;
    let count = on.len();
    if room.len() < count {
        return Err(7);
    }
    let directions = on.iter().map(|&point| point ^ first);
    let basis = directions.fold(Basis::default(), insert);
    let others = leads(&basis) ^ ((1 << n) - 1);
    write(on.iter().map(|&point| without(others, point)), count, room)?;
    Ok(Affine {
        refusal: 0,
        least: reduce(&basis, first),
        dimension: basis.len,
        basis,
        count,
    })
}

/// The call.
pub fn affine(n: usize, on: &[u16], room: &mut [u16]) -> Affine {
    try_affine(n, on, room).unwrap_or_else(|refusal| Affine {
        refusal,
        ..Affine::default()
    })
}
