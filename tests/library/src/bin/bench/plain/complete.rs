//! The completion call in plain Rust. Follows document 01, section "Points and
//! spaces", and document 02, No. 4.

use super::largest::{largest, spread};
use super::linear_space::space_of;
use super::table::{checked, mark, write, Flags};
use super::vector_sets::{self, closure_set, VectorSet};
use glospruma::MAX_POINTS;
use library::{Basis, Completion};

/// A table completed: the flags of the function, their number, its basis, and
/// the degrees with all free points off and on.
pub struct Completed {
    pub flags: Flags,
    pub count: usize,
    pub basis: Basis,
    pub k0: usize,
    pub k1: usize,
}

/// By the largest space inside the closure set, for at most eight variables: the
/// flags of the function, their number, and its basis.
fn widened(n: usize, on: &[u16], free: &[u16]) -> (Flags, usize, Basis) {
    let on_set = VectorSet::of(on);
    let basis = largest(n, closure_set(n, on, on_set.or(VectorSet::of(free))));
    let function = spread(on_set, &basis);
    let mut flags = [false; MAX_POINTS];
    for point in function.vectors() {
        flags[usize::from(point)] = true;
    }
    (flags, function.count(), basis)
}

/// Completes a table, or refuses it with 1, 2, 3 or 4.
pub fn completed(n: usize, on: &[u16], free: &[u16]) -> Result<Completed, u8> {
    let off_flags = checked(n, on, free)?;
    let mut on_flags = off_flags;
    mark(&mut on_flags, free);
    let (off, all) = (space_of(&off_flags, n), space_of(&on_flags, n));
    let (flags, count, basis) = if n <= vector_sets::MOST_VARIABLES {
        widened(n, on, free)
    } else if all.len > off.len {
        (on_flags, on.len() + free.len(), all)
    } else {
        (off_flags, on.len(), off)
    };
    Ok(Completed {
        flags,
        count,
        basis,
        k0: off.len,
        k1: all.len,
    })
}

/// Writes the points of a completed function; the call's numbers, the degrees among
/// them: its own, k0 and k1.
pub fn answer(
    points: impl Iterator<Item = u16>,
    count: usize,
    (degree, k0, k1): (usize, usize, usize),
    room: &mut [u16],
) -> Result<Completion, u8> {
    write(points, count, room)?;
    Ok(Completion {
        refusal: 0,
        count,
        degree,
        k0,
        k1,
    })
}

fn try_complete(n: usize, on: &[u16], free: &[u16], room: &mut [u16]) -> Result<Completion, u8> {
    let Completed {
        flags,
        count,
        basis,
        k0,
        k1,
    } = completed(n, on, free)?;
    let points = (0..1u16 << n).filter(|&point| flags[usize::from(point)]);
    answer(points, count, (basis.len, k0, k1), room)
}

/// The call.
pub fn complete(n: usize, on: &[u16], free: &[u16], room: &mut [u16]) -> Completion {
    try_complete(n, on, free, room).unwrap_or_else(|refusal| Completion {
        refusal,
        ..Completion::default()
    })
}
