//! The call that lays two stored tables side by side, in plain Rust: a mark to each
//! point of either table, and a walk along both. Follows document 02, No. 1 and No. 3.

use super::read_table::{read_records, Refused, KIND_ON};
use glospruma::{DIFFERENCE_LENGTH, MAX_POINTS};
use library::Comparison;

/// A mark to a point: 0 off, 1 on, 2 free.
type Marks = [u8; MAX_POINTS];

/// The number of variables and the marks of a stored table.
fn marks_of(bytes: &[u8]) -> Result<(usize, Marks), Refused> {
    let mut marks = [0; MAX_POINTS];
    let n = read_records(bytes, |kind, point| {
        marks[usize::from(point)] = if kind == KIND_ON { 1 } else { 2 };
    })?;
    Ok((n, marks))
}

/// Writes the points from the first one on that differ; the number of records, and
/// the point of one that doesn't fit or the end.
fn write(left: &[u8], right: &[u8], first: usize, room: &mut [u8]) -> (usize, usize) {
    let mut places = room.chunks_exact_mut(DIFFERENCE_LENGTH);
    let mut records = 0;
    for (point, (&left, &right)) in left.iter().zip(right).enumerate().skip(first) {
        if left != right {
            let Some(place) = places.next() else {
                return (records, point);
            };
            let [low, high] = (point as u16).to_le_bytes();
            place.copy_from_slice(&[low, high, left, right]);
            records += 1;
        }
    }
    (records, left.len())
}

fn try_compare(
    left: &[u8],
    right: &[u8],
    first: usize,
    room: &mut [u8],
) -> Result<Comparison, Refused> {
    let (n, left) = marks_of(left)?;
    let (other, right) = marks_of(right)?;
    if n != other {
        return Err((10, 0));
    }
    if first > 1 << n {
        return Err((11, 0));
    }
    let (left, right) = (&left[..1 << n], &right[..1 << n]);
    let differing = left.iter().zip(right).filter(|(left, right)| left != right);
    let total = differing.count();
    let (records, next) = write(left, right, first, room);
    Ok(Comparison {
        refusal: 0,
        place: 0,
        records,
        next,
        total,
    })
}

/// The call.
pub fn compare(left: &[u8], right: &[u8], first: usize, room: &mut [u8]) -> Comparison {
    try_compare(left, right, first, room).unwrap_or_else(|(refusal, place)| Comparison {
        refusal,
        place,
        ..Comparison::default()
    })
}
