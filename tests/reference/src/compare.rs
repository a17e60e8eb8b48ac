//! Two stored tables side by side: each point where their marks differ, with both
//! marks, and how many there are. Follows document 02, No. 1 and No. 3.

use crate::refusal::{self, Refused};
use crate::table::{self, Table};
use crate::walk;

/// Bytes of one record.
pub const DIFFERENCE_LENGTH: usize = 4;

/// The mark of a point in neither list.
pub const OFF: u8 = 0;
/// The mark of an on point.
pub const ON: u8 = 1;
/// The mark of a free point.
pub const FREE: u8 = 2;

/// A point where two tables differ, and its marks.
#[derive(Clone, Copy, Debug, PartialEq, Eq)]
pub struct Difference {
    pub point: u16,
    pub left: u8,
    pub right: u8,
}

/// What a comparison returns beside the bytes in its room.
#[derive(Clone, Copy, Debug, PartialEq, Eq)]
pub struct Comparison {
    pub records: usize,
    pub next_point: usize,
    pub total: usize,
}

/// The mark of a point in a table, whose lists rise.
pub fn mark((_, on, free): &Table, point: u16) -> u8 {
    if on.binary_search(&point).is_ok() {
        return ON;
    }
    if free.binary_search(&point).is_ok() {
        return FREE;
    }
    OFF
}

/// Each point where the marks of two tables of as many variables differ, rising.
pub fn differences(left: &Table, right: &Table) -> Vec<Difference> {
    let points = 0..1u16 << left.0;
    let both = points.map(|point| Difference {
        point,
        left: mark(left, point),
        right: mark(right, point),
    });
    both.filter(|both| both.left != both.right).collect()
}

/// The record of a difference: the point, low byte first, then the left and the
/// right mark.
pub fn record(difference: &Difference) -> [u8; DIFFERENCE_LENGTH] {
    let [low, high] = walk::number_bytes(difference.point);
    [low, high, difference.left, difference.right]
}

/// The comparison call. All refusals of the left table, then those of the right one,
/// then 10 and 11; a place is one in the table that is refused. The differences from
/// the first point on go to the front of the room, as far as they fit; the next point
/// is that of the first one left over, or 2^n. The total is that of the whole tables.
pub fn compare(
    left: &[u8],
    right: &[u8],
    first: usize,
    room: &mut [u8],
) -> Result<Comparison, Refused> {
    let left = table::read_stored(left)?;
    let right = table::read_stored(right)?;
    if left.0 != right.0 {
        return Err(refusal::COUNTS_DIFFER.into());
    }
    let size = 1 << left.0;
    if first > size {
        return Err(refusal::FIRST_POINT_TOO_LARGE.into());
    }
    let all = differences(&left, &right);
    let mut ahead = all.iter().filter(|found| usize::from(found.point) >= first);
    let mut records = 0;
    for space in room.chunks_exact_mut(DIFFERENCE_LENGTH) {
        let Some(found) = ahead.next() else { break };
        space.copy_from_slice(&record(found));
        records += 1;
    }
    Ok(Comparison {
        records,
        next_point: ahead.next().map_or(size, |found| usize::from(found.point)),
        total: all.len(),
    })
}
