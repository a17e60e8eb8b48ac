//! The declarations of the static library: the numbers that each call returns,
//! field by field as include/glospruma.h has them, and a function for each call
//! that takes slices and returns these numbers as they come, the refusal first,
//! 0 when accepted. A slice passes as a pointer and then its length.
//!
//! This module alone has `unsafe` in it. What a call means is said at the
//! function of the same name in the package's root, which is the one to use.
//! Follows document 01, section "Refusal numbers", and document 02.

#![allow(unsafe_code)]

use crate::{MAX_VARIABLES, NO_PRODUCT};

/// Up to twelve numbers by value: indices of variables, or masks of equations;
/// unused entries are 0.
#[repr(C)]
#[derive(Clone, Copy, Debug, Default, PartialEq, Eq)]
pub struct ShortList {
    /// The numbers, and 0 after them.
    pub values: [u16; MAX_VARIABLES],
    /// How many numbers there are.
    pub len: usize,
}

impl ShortList {
    /// The numbers alone.
    pub fn as_slice(&self) -> &[u16] {
        &self.values[..self.len]
    }
}

/// A reduced basis by value: the highest set bit of each vector is set in no
/// other, and vectors rise; unused entries are 0.
#[repr(C)]
#[derive(Clone, Copy, Debug, Default, PartialEq, Eq)]
pub struct Basis {
    /// The vectors, and 0 after them.
    pub vectors: [u16; MAX_VARIABLES],
    /// How many vectors there are: the dimension.
    pub len: usize,
}

impl Basis {
    /// The vectors alone.
    pub fn as_slice(&self) -> &[u16] {
        &self.vectors[..self.len]
    }
}

/// Numbers of [`read_table`].
#[repr(C)]
#[derive(Clone, Copy, Debug, Default, PartialEq, Eq)]
pub struct TableRead {
    /// 0, or the refusal number.
    pub refusal: u8,
    /// The place that goes with refusals 20 to 27, else 0.
    pub place: usize,
    /// The number n of variables.
    pub variables: usize,
    /// On points written.
    pub on_count: usize,
    /// Free points written.
    pub free_count: usize,
}

/// Numbers of [`compare`].
#[repr(C)]
#[derive(Clone, Copy, Debug, Default, PartialEq, Eq)]
pub struct Comparison {
    /// 0, or the refusal number.
    pub refusal: u8,
    /// The place that goes with refusals 20 to 27, else 0.
    pub place: usize,
    /// Records written, 4 bytes each.
    pub records: usize,
    /// The point to go on from, or 2^n when done.
    pub next: usize,
    /// Points of the whole tables that differ.
    pub total: usize,
}

/// Numbers of [`linear_space`].
#[repr(C)]
#[derive(Clone, Copy, Debug, Default, PartialEq, Eq)]
pub struct LinearSpace {
    /// 0, or the refusal number.
    pub refusal: u8,
    /// The dimension of the linear space.
    pub degree: usize,
    /// Its reduced basis.
    pub basis: Basis,
}

/// Numbers of [`complete`].
#[repr(C)]
#[derive(Clone, Copy, Debug, Default, PartialEq, Eq)]
pub struct Completion {
    /// 0, or the refusal number.
    pub refusal: u8,
    /// Points written.
    pub count: usize,
    /// The degree of the completed function.
    pub degree: usize,
    /// The degree k0, with all free points off.
    pub k0: usize,
    /// The degree k1, with all free points on.
    pub k1: usize,
}

/// Numbers of [`analyse`].
#[repr(C)]
#[derive(Clone, Copy, Debug, Default, PartialEq, Eq)]
pub struct Analysis {
    /// 0, or the refusal number.
    pub refusal: u8,
    /// The degree of the completed function.
    pub degree: usize,
    /// The reduced basis of its linear space.
    pub basis: Basis,
    /// The canonical variables by index.
    pub canonical: ShortList,
    /// The right sides of the reduction equations, as masks.
    pub equations: ShortList,
    /// Points of the restriction written.
    pub count: usize,
}

/// Numbers of [`affine`].
#[repr(C)]
#[derive(Clone, Copy, Debug, Default, PartialEq, Eq)]
pub struct Affine {
    /// 0, or the refusal number.
    pub refusal: u8,
    /// The least point of the space.
    pub least: u16,
    /// The dimension of the space.
    pub dimension: usize,
    /// The reduced basis of its directions.
    pub basis: Basis,
    /// Points of the projection written.
    pub count: usize,
}

/// Numbers of [`list_primes`].
#[repr(C)]
#[derive(Clone, Copy, Debug, Default, PartialEq, Eq)]
pub struct Listed {
    /// 0, or the refusal number.
    pub refusal: u8,
    /// The place to go on from.
    pub next: u64,
    /// Candidates passed: the next place less the place.
    pub passed: u64,
    /// Records written, [`RECORD_LENGTH`](crate::RECORD_LENGTH) bytes each.
    pub records: usize,
}

/// Numbers of [`write_form`].
#[repr(C)]
#[derive(Clone, Copy, Debug, Default, PartialEq, Eq)]
pub struct FormWritten {
    /// 0, or the refusal number.
    pub refusal: u8,
    /// Bytes written.
    pub length: usize,
    /// Products among them.
    pub products: usize,
}

/// Numbers of [`form_points`].
#[repr(C)]
#[derive(Clone, Copy, Debug, Default, PartialEq, Eq)]
pub struct FormPoints {
    /// 0, or the refusal number.
    pub refusal: u8,
    /// The place that goes with refusals 20 to 27, else 0.
    pub place: usize,
    /// The number n of variables.
    pub variables: usize,
    /// Points written.
    pub count: usize,
}

/// Numbers of [`form_rewrite`].
#[repr(C)]
#[derive(Clone, Copy, Debug, Default, PartialEq, Eq)]
pub struct FormRewrite {
    /// 0, or the refusal number.
    pub refusal: u8,
    /// The place that goes with refusals 20 to 27, else 0.
    pub place: usize,
    /// Bytes written.
    pub length: usize,
}

/// The record of a point in an index: how many products hold it, and which is the
/// first.
#[repr(C)]
#[derive(Clone, Copy, Debug, PartialEq, Eq, Hash)]
pub struct PointRecord {
    /// How many products hold the point: are true there.
    pub count: u16,
    /// The first of them, counted from 0, or [`NO_PRODUCT`].
    pub first: u16,
}

/// The record of a point that no product holds.
impl Default for PointRecord {
    fn default() -> PointRecord {
        PointRecord {
            count: 0,
            first: NO_PRODUCT,
        }
    }
}

/// Numbers of [`index_build`], [`index_append`] and [`index_remove`]: those of the
/// form that the list belongs to when the call is done.
#[repr(C)]
#[derive(Clone, Copy, Debug, Default, PartialEq, Eq)]
pub struct Indexed {
    /// 0, or the refusal number.
    pub refusal: u8,
    /// The place that goes with refusals 20 to 27, else 0.
    pub place: usize,
    /// The number n of variables.
    pub variables: usize,
    /// Bytes of the form.
    pub length: usize,
    /// Products of the form.
    pub products: usize,
}

/// Numbers of [`report`].
#[repr(C)]
#[derive(Clone, Copy, Debug, Default, PartialEq, Eq)]
pub struct Report {
    /// 0, or the refusal number.
    pub refusal: u8,
    /// Bytes of text written.
    pub length: usize,
}

extern "C" {
    fn glospruma_read_table(
        bytes: *const u8,
        bytes_length: usize,
        on: *mut u16,
        on_length: usize,
        free: *mut u16,
        free_length: usize,
    ) -> TableRead;

    fn glospruma_compare(
        left: *const u8,
        left_length: usize,
        right: *const u8,
        right_length: usize,
        first: usize,
        room: *mut u8,
        room_length: usize,
    ) -> Comparison;

    fn glospruma_linear_space(n: usize, on: *const u16, on_length: usize) -> LinearSpace;

    fn glospruma_complete(
        n: usize,
        on: *const u16,
        on_length: usize,
        free: *const u16,
        free_length: usize,
        room: *mut u16,
        room_length: usize,
    ) -> Completion;

    fn glospruma_analyse(
        n: usize,
        on: *const u16,
        on_length: usize,
        free: *const u16,
        free_length: usize,
        room: *mut u16,
        room_length: usize,
    ) -> Analysis;

    fn glospruma_affine(
        n: usize,
        on: *const u16,
        on_length: usize,
        room: *mut u16,
        room_length: usize,
    ) -> Affine;

    fn glospruma_list_primes(
        n: usize,
        on: *const u16,
        on_length: usize,
        free: *const u16,
        free_length: usize,
        place: u64,
        allowance: u64,
        room: *mut u8,
        room_length: usize,
    ) -> Listed;

    fn glospruma_write_form(
        n: usize,
        on: *const u16,
        on_length: usize,
        free: *const u16,
        free_length: usize,
        room: *mut u8,
        room_length: usize,
    ) -> FormWritten;

    fn glospruma_form_points(
        bytes: *const u8,
        bytes_length: usize,
        room: *mut u16,
        room_length: usize,
    ) -> FormPoints;

    fn glospruma_form_rewrite(
        bytes: *const u8,
        bytes_length: usize,
        room: *mut u8,
        room_length: usize,
    ) -> FormRewrite;

    fn glospruma_index_build(
        form: *const u8,
        form_length: usize,
        list: *mut PointRecord,
        list_length: usize,
    ) -> Indexed;

    fn glospruma_index_append(
        form: *const u8,
        form_length: usize,
        product: *const u8,
        product_length: usize,
        list: *mut PointRecord,
        list_length: usize,
        room: *mut u8,
        room_length: usize,
    ) -> Indexed;

    fn glospruma_index_remove(
        form: *const u8,
        form_length: usize,
        list: *mut PointRecord,
        list_length: usize,
        room: *mut u8,
        room_length: usize,
    ) -> Indexed;

    fn glospruma_report(
        bytes: *const u8,
        bytes_length: usize,
        room: *mut u8,
        room_length: usize,
    ) -> Report;
}

// SAFETY, of every call below: each pointer is that of a slice, and its own
// length comes with it; rooms are borrowed mutably and so overlap nothing; the
// calls ask nothing else of their caller.

/// Reads a stored table; its points go to the two rooms.
#[inline]
pub fn read_table(bytes: &[u8], on: &mut [u16], free: &mut [u16]) -> TableRead {
    unsafe {
        glospruma_read_table(
            bytes.as_ptr(),
            bytes.len(),
            on.as_mut_ptr(),
            on.len(),
            free.as_mut_ptr(),
            free.len(),
        )
    }
}

/// Lays two stored tables side by side; the records of the points that differ go
/// to the room, from a first point on.
#[inline]
pub fn compare(left: &[u8], right: &[u8], first: usize, room: &mut [u8]) -> Comparison {
    unsafe {
        glospruma_compare(
            left.as_ptr(),
            left.len(),
            right.as_ptr(),
            right.len(),
            first,
            room.as_mut_ptr(),
            room.len(),
        )
    }
}

/// The linear space of the function of n variables with these on points.
#[inline]
pub fn linear_space(n: usize, on: &[u16]) -> LinearSpace {
    unsafe { glospruma_linear_space(n, on.as_ptr(), on.len()) }
}

/// Completes a table; the on points of the completed function go to the room.
#[inline]
pub fn complete(n: usize, on: &[u16], free: &[u16], room: &mut [u16]) -> Completion {
    unsafe {
        glospruma_complete(
            n,
            on.as_ptr(),
            on.len(),
            free.as_ptr(),
            free.len(),
            room.as_mut_ptr(),
            room.len(),
        )
    }
}

/// Analyses a table; the points of the restriction go to the room.
#[inline]
pub fn analyse(n: usize, on: &[u16], free: &[u16], room: &mut [u16]) -> Analysis {
    unsafe {
        glospruma_analyse(
            n,
            on.as_ptr(),
            on.len(),
            free.as_ptr(),
            free.len(),
            room.as_mut_ptr(),
            room.len(),
        )
    }
}

/// The smallest affine space that holds the on points; their projection goes to
/// the room.
#[inline]
pub fn affine(n: usize, on: &[u16], room: &mut [u16]) -> Affine {
    unsafe { glospruma_affine(n, on.as_ptr(), on.len(), room.as_mut_ptr(), room.len()) }
}

/// Passes candidates from a place on; the records of the primes among them go to
/// the room.
#[inline]
pub fn list_primes(
    n: usize,
    on: &[u16],
    free: &[u16],
    place: u64,
    allowance: u64,
    room: &mut [u8],
) -> Listed {
    unsafe {
        glospruma_list_primes(
            n,
            on.as_ptr(),
            on.len(),
            free.as_ptr(),
            free.len(),
            place,
            allowance,
            room.as_mut_ptr(),
            room.len(),
        )
    }
}

/// Writes the form of a table to the room.
#[inline]
pub fn write_form(n: usize, on: &[u16], free: &[u16], room: &mut [u8]) -> FormWritten {
    unsafe {
        glospruma_write_form(
            n,
            on.as_ptr(),
            on.len(),
            free.as_ptr(),
            free.len(),
            room.as_mut_ptr(),
            room.len(),
        )
    }
}

/// Reads a form; its points go to the room.
#[inline]
pub fn form_points(bytes: &[u8], room: &mut [u16]) -> FormPoints {
    unsafe { glospruma_form_points(bytes.as_ptr(), bytes.len(), room.as_mut_ptr(), room.len()) }
}

/// Reads a form; what was read goes to the room, which gives the same bytes.
#[inline]
pub fn form_rewrite(bytes: &[u8], room: &mut [u8]) -> FormRewrite {
    unsafe { glospruma_form_rewrite(bytes.as_ptr(), bytes.len(), room.as_mut_ptr(), room.len()) }
}

/// Builds the index of a form in the list.
#[inline]
pub fn index_build(form: &[u8], list: &mut [PointRecord]) -> Indexed {
    unsafe { glospruma_index_build(form.as_ptr(), form.len(), list.as_mut_ptr(), list.len()) }
}

/// Appends a product to a form; the new form goes to the room, and the list is
/// changed with it.
#[inline]
pub fn index_append(
    form: &[u8],
    product: &[u8],
    list: &mut [PointRecord],
    room: &mut [u8],
) -> Indexed {
    unsafe {
        glospruma_index_append(
            form.as_ptr(),
            form.len(),
            product.as_ptr(),
            product.len(),
            list.as_mut_ptr(),
            list.len(),
            room.as_mut_ptr(),
            room.len(),
        )
    }
}

/// Takes the last product away from a form; the new form goes to the room, and the
/// list is changed with it.
#[inline]
pub fn index_remove(form: &[u8], list: &mut [PointRecord], room: &mut [u8]) -> Indexed {
    unsafe {
        glospruma_index_remove(
            form.as_ptr(),
            form.len(),
            list.as_mut_ptr(),
            list.len(),
            room.as_mut_ptr(),
            room.len(),
        )
    }
}

/// Writes the whole text for a stored table to the room; a refused table has a
/// text too.
#[inline]
pub fn report(bytes: &[u8], room: &mut [u8]) -> Report {
    unsafe { glospruma_report(bytes.as_ptr(), bytes.len(), room.as_mut_ptr(), room.len()) }
}
