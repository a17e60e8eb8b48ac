//! The reader of a stored table in plain Rust. Follows document 01, section "The
//! written form", and document 02, No. 3.

use glospruma::{MAX_VARIABLES, TABLE_LENGTH};
use library::TableRead;

/// Kind of an on point.
pub const KIND_ON: u8 = 0x4F;

/// A stored table read: n, on points and free points.
type Read = (usize, Vec<u16>, Vec<u16>);

/// A refusal and its place, or 0.
pub type Refused = (u8, usize);

/// The records of bytes that are laid out as a table, or the first fault from the
/// left.
fn records(bytes: &[u8]) -> Result<&[u8], Refused> {
    if *bytes.first().ok_or((21, 0))? != 0x4E {
        return Err((20, 0));
    }
    let length = bytes.len();
    let awaited = bytes.get(2..length.min(TABLE_LENGTH)).ok_or((21, 1))?;
    let is_point = |record: &&[u8]| matches!(record[0], KIND_ON | 0x44);
    let points = awaited.chunks_exact(3).take_while(is_point).count();
    let (records, behind) = awaited.split_at(3 * points);
    let place = 2 + records.len();
    let count = (points as u16).to_le_bytes();
    match behind {
        [0x45, low, high, ..] if [*low, *high] != count => Err((25, place + 1)),
        [0x45, _, _, ..] if length > place + 3 => Err((26, place + 3)),
        [0x45, _, _] => Ok(records),
        [] if length > TABLE_LENGTH => Err((26, TABLE_LENGTH)),
        [] | [KIND_ON | 0x44 | 0x45, ..] => Err((21, length)),
        _ => Err((20, place)),
    }
}

/// Hands kind and point of each record of a stored table to a visitor, and gives n;
/// or refuses the table with 20, 21, 25 or 26 and a place, or with 1, 2 or 3, the
/// last after some records.
pub fn read_records(bytes: &[u8], mut visit: impl FnMut(u8, u16)) -> Result<usize, Refused> {
    let records = records(bytes)?;
    let n = usize::from(bytes[1]);
    if n == 0 || n > MAX_VARIABLES {
        return Err((1, 0));
    }
    let point_of = |record: &[u8]| u16::from_le_bytes([record[1], record[2]]);
    let mut points = records.chunks_exact(3).map(point_of);
    if points.any(|point| usize::from(point) >= 1 << n) {
        return Err((2, 0));
    }
    let mut next = 0;
    for record in records.chunks_exact(3) {
        let point = point_of(record);
        if point < next {
            return Err((3, 0));
        }
        next = point + 1;
        visit(record[0], point);
    }
    Ok(n)
}

/// Reads a stored table, or refuses it.
pub fn read_table(bytes: &[u8]) -> Result<Read, Refused> {
    let (mut on, mut free) = (Vec::new(), Vec::new());
    let n = read_records(bytes, |kind, point| match kind {
        KIND_ON => on.push(point),
        _ => free.push(point),
    })?;
    Ok((n, on, free))
}

/// Reads a stored table into two rooms, or refuses it and leaves both as they are.
pub fn read_into_rooms(bytes: &[u8], on: &mut [u16], free: &mut [u16]) -> TableRead {
    let (mut on_count, mut free_count) = (0, 0);
    let read = read_records(bytes, |kind, _| match kind {
        KIND_ON => on_count += 1,
        _ => free_count += 1,
    });
    let is_short = on.len() < on_count || free.len() < free_count;
    let variables = match read {
        Ok(variables) if !is_short => variables,
        read => {
            let (refusal, place) = read.err().unwrap_or((7, 0));
            return TableRead {
                refusal,
                place,
                ..TableRead::default()
            };
        }
    };
    let (mut on, mut free) = (on.iter_mut(), free.iter_mut());
    for record in bytes[2..bytes.len() - 3].chunks_exact(3) {
        let room = if record[0] == KIND_ON {
            &mut on
        } else {
            &mut free
        };
        *room.next().expect("it was counted") = u16::from_le_bytes([record[1], record[2]]);
    }
    TableRead {
        variables,
        on_count,
        free_count,
        ..TableRead::default()
    }
}
