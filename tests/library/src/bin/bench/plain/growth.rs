//! The completion of source 003: the larger of the spaces with all free points off
//! and with all of them on, grown by cosets inside the closure set as they come
//! (Algorithm 2), and the on points spread over it coset by coset (Algorithm 3). It
//! may find a smaller space than there is. Document 02, No. 4, has the exact rule.

use super::complete::answer;
use super::largest::spread;
use super::linear_space::space_of;
use super::table::{checked, mark};
use super::vector_sets::{closure_set, VectorSet};
use library::Completion;

/// Algorithm 2: grows a space inside the closure set, the least vector first.
fn grown(closure: VectorSet, start: VectorSet) -> VectorSet {
    let mut space = start;
    let mut left = closure.without(space);
    while let Some(vector) = left.least() {
        let coset = space.moved(vector);
        if coset.without(closure) == VectorSet::EMPTY {
            space = space.or(coset);
        }
        left = left.without(coset);
    }
    space
}

/// Algorithm 3: the cosets of the space that have on points.
fn cosets(on: VectorSet, space: VectorSet) -> VectorSet {
    let (mut function, mut left) = (VectorSet::EMPTY, on);
    while let Some(point) = left.least() {
        let coset = space.moved(point);
        function = function.or(coset);
        left = left.without(coset);
    }
    function
}

fn try_complete(n: usize, on: &[u16], free: &[u16], room: &mut [u16]) -> Result<Completion, u8> {
    let off_flags = checked(n, on, free)?;
    let mut on_flags = off_flags;
    mark(&mut on_flags, free);
    let (off, all) = (space_of(&off_flags, n), space_of(&on_flags, n));
    let larger = if all.len > off.len { all } else { off };
    let on_set = VectorSet::of(on);
    let closure = closure_set(n, on, on_set.or(VectorSet::of(free)));
    let space = grown(closure, spread(VectorSet::of(&[0]), &larger));
    let function = cosets(on_set, space);
    let degree = space.count().ilog2() as usize;
    answer(
        function.vectors(),
        function.count(),
        (degree, off.len, all.len),
        room,
    )
}

/// The call for tables of at most eight variables, by the rule of source 003.
pub fn complete_by_growth(n: usize, on: &[u16], free: &[u16], room: &mut [u16]) -> Completion {
    try_complete(n, on, free, room).unwrap_or_else(|refusal| Completion {
        refusal,
        ..Completion::default()
    })
}
