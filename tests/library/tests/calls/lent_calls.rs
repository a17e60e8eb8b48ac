//! The calls for tests that have their lists and rooms in plain memory: each is
//! made on a copy in lent memory, and what it left in a room is copied back.
//! Follows document 01, section "Refusal numbers", and document 02, No. 1, No. 3 and
//! No. 5.

use crate::lent::{Entry, Lent};
use library::{Affine, Analysis, Comparison, Completion, FormPoints, FormRewrite};
use library::{FormWritten, Indexed, LinearSpace, Listed, PointRecord, Report, TableRead};

/// Makes a call in a copy of a room; memory beside it must be as lent.
fn in_copy<E: Entry, N>(room: &mut [E], call: impl FnOnce(&mut [E]) -> N) -> N {
    let mut lent = Lent::room(room.len());
    lent.part_mut().copy_from_slice(room);
    let numbers = call(lent.part_mut());
    room.copy_from_slice(lent.part());
    lent.assert_front(room);
    numbers
}

pub fn read_table(bytes: &[u8], on: &mut [u16], free: &mut [u16]) -> TableRead {
    let bytes = Lent::holding(bytes);
    in_copy(on, |on| {
        in_copy(free, |free| library::read_table(bytes.part(), on, free))
    })
}

pub fn compare(left: &[u8], right: &[u8], first: usize, room: &mut [u8]) -> Comparison {
    let (left, right) = (Lent::holding(left), Lent::holding(right));
    in_copy(room, |room| {
        library::compare(left.part(), right.part(), first, room)
    })
}

pub fn linear_space(n: usize, on: &[u16]) -> LinearSpace {
    library::linear_space(n, Lent::holding(on).part())
}

pub fn complete(n: usize, on: &[u16], free: &[u16], room: &mut [u16]) -> Completion {
    let (on, free) = (Lent::holding(on), Lent::holding(free));
    in_copy(room, |room| {
        library::complete(n, on.part(), free.part(), room)
    })
}

pub fn analyse(n: usize, on: &[u16], free: &[u16], room: &mut [u16]) -> Analysis {
    let (on, free) = (Lent::holding(on), Lent::holding(free));
    in_copy(room, |room| {
        library::analyse(n, on.part(), free.part(), room)
    })
}

pub fn affine(n: usize, on: &[u16], room: &mut [u16]) -> Affine {
    let on = Lent::holding(on);
    in_copy(room, |room| library::affine(n, on.part(), room))
}

pub fn list_primes(
    n: usize,
    on: &[u16],
    free: &[u16],
    place: u64,
    allowance: u64,
    room: &mut [u8],
) -> Listed {
    let (on, free) = (Lent::holding(on), Lent::holding(free));
    in_copy(room, |room| {
        library::list_primes(n, on.part(), free.part(), place, allowance, room)
    })
}

pub fn write_form(n: usize, on: &[u16], free: &[u16], room: &mut [u8]) -> FormWritten {
    let (on, free) = (Lent::holding(on), Lent::holding(free));
    in_copy(room, |room| {
        library::write_form(n, on.part(), free.part(), room)
    })
}

pub fn form_points(bytes: &[u8], room: &mut [u16]) -> FormPoints {
    let bytes = Lent::holding(bytes);
    in_copy(room, |room| library::form_points(bytes.part(), room))
}

pub fn form_rewrite(bytes: &[u8], room: &mut [u8]) -> FormRewrite {
    let bytes = Lent::holding(bytes);
    in_copy(room, |room| library::form_rewrite(bytes.part(), room))
}

pub fn index_build(form: &[u8], list: &mut [PointRecord]) -> Indexed {
    let form = Lent::holding(form);
    in_copy(list, |list| library::index_build(form.part(), list))
}

pub fn index_append(
    form: &[u8],
    product: &[u8],
    list: &mut [PointRecord],
    room: &mut [u8],
) -> Indexed {
    let (form, product) = (Lent::holding(form), Lent::holding(product));
    in_copy(list, |list| {
        in_copy(room, |room| {
            library::index_append(form.part(), product.part(), list, room)
        })
    })
}

pub fn index_remove(form: &[u8], list: &mut [PointRecord], room: &mut [u8]) -> Indexed {
    let form = Lent::holding(form);
    in_copy(list, |list| {
        in_copy(room, |room| library::index_remove(form.part(), list, room))
    })
}

pub fn report(bytes: &[u8], room: &mut [u8]) -> Report {
    let bytes = Lent::holding(bytes);
    in_copy(room, |room| library::report(bytes.part(), room))
}
