//! Tables of on and free points: the tests on two lists, and the reader of a
//! stored table. Follows document 01, sections "Points and spaces", "The
//! written form" and "Refusal numbers", and document 02, No. 3.

use crate::refusal::{self, Refused};
use crate::walk;

/// Most variables that a table may have.
pub const MOST_VARIABLES: usize = 12;

/// Most points that a table may have.
pub const MOST_POINTS: usize = 1 << MOST_VARIABLES;

/// Most bytes that a stored table may have.
pub const LONGEST_STORED: usize = 12_293;

/// n, the on points and the free points.
pub type Table = (usize, Vec<u16>, Vec<u16>);

/// A stored table as laid out, before its n and its points are judged.
#[derive(Clone, Debug, PartialEq, Eq)]
pub struct Stored {
    /// The byte after 4E.
    pub variables: u8,
    /// Kind and point of each record, as they stand.
    pub records: Vec<(u8, u16)>,
}

/// Whether n is from 1 to 12.
pub fn is_variable_count(n: usize) -> bool {
    (1..=MOST_VARIABLES).contains(&n)
}

/// Whether each point is greater than the one before it.
pub fn is_rising(points: &[u16]) -> bool {
    points.windows(2).all(|pair| pair[0] < pair[1])
}

/// Whether each point is below 2^n, for n from 1 to 12.
pub fn is_below(n: usize, points: &[u16]) -> bool {
    points.iter().all(|&point| usize::from(point) < 1 << n)
}

/// Tests two lists for refusals 1, 2, 3 and 4; each number is tested on both
/// lists before the next number is.
pub fn check(n: usize, on: &[u16], free: &[u16]) -> Result<(), u8> {
    if !is_variable_count(n) {
        return Err(refusal::VARIABLE_COUNT);
    }
    if !is_below(n, on) || !is_below(n, free) {
        return Err(refusal::POINT_TOO_LARGE);
    }
    if !is_rising(on) || !is_rising(free) {
        return Err(refusal::NOT_RISING);
    }
    let mut marked = vec![false; 1 << n];
    for &point in on {
        marked[usize::from(point)] = true;
    }
    if free.iter().any(|&point| marked[usize::from(point)]) {
        return Err(refusal::IN_BOTH_LISTS);
    }
    Ok(())
}

/// Walks the records of an input that isn't too long.
fn walk_records(bytes: &[u8]) -> Result<Stored, Refused> {
    let variables = walk::first_record(bytes)?;
    let mut records = Vec::new();
    let mut place = 2;
    loop {
        let kind = walk::kind_at(bytes, place)?;
        match kind {
            walk::KIND_ON | walk::KIND_FREE => {
                let body = walk::body_at(bytes, place + 1, 2)?;
                records.push((kind, walk::number(body)));
                place += 3;
            }
            walk::KIND_END => {
                walk::last_record(bytes, place, records.len())?;
                return Ok(Stored { variables, records });
            }
            _ => return Err(Refused::at(refusal::WRONG_KIND, place)),
        }
    }
}

/// Walks a stored table from the left: its records as laid out, or the first
/// fault and its place. An input that is too long has bytes after the end at
/// place 12,293, if no earlier byte is at fault.
pub fn walk_stored(bytes: &[u8]) -> Result<Stored, Refused> {
    if bytes.len() <= LONGEST_STORED {
        return walk_records(bytes);
    }
    match walk_records(&bytes[..LONGEST_STORED]) {
        Err(refused) if refused.place < LONGEST_STORED => Err(refused),
        _ => Err(Refused::at(refusal::BYTES_AFTER, LONGEST_STORED)),
    }
}

/// The points of the records of one kind, as they stand.
fn points_of_kind(records: &[(u8, u16)], kind: u8) -> Vec<u16> {
    let chosen = records.iter().filter(|record| record.0 == kind);
    chosen.map(|record| record.1).collect()
}

/// Reads a stored table: refusals 20, 21, 25 and 26 with their places over the
/// whole length, then 1, 2 and 3, where all records are one list.
pub fn read_stored(bytes: &[u8]) -> Result<Table, Refused> {
    let stored = walk_stored(bytes)?;
    let n = usize::from(stored.variables);
    let points: Vec<u16> = stored.records.iter().map(|record| record.1).collect();
    check(n, &points, &[])?;
    let on = points_of_kind(&stored.records, walk::KIND_ON);
    let free = points_of_kind(&stored.records, walk::KIND_FREE);
    Ok((n, on, free))
}

/// Bytes of a stored table with the given records in the given order, right or
/// wrong; the count is the number of records.
pub fn write_records(variables: u8, records: &[(u8, u16)]) -> Vec<u8> {
    let mut bytes = vec![walk::KIND_VARIABLES, variables];
    for &(kind, point) in records {
        bytes.push(kind);
        bytes.extend(walk::number_bytes(point));
    }
    bytes.push(walk::KIND_END);
    bytes.extend(walk::number_bytes(records.len() as u16));
    bytes
}

/// Bytes of the stored table of two lists, merged in rising order.
pub fn write_stored(n: usize, on: &[u16], free: &[u16]) -> Vec<u8> {
    let on_records = on.iter().map(|&point| (walk::KIND_ON, point));
    let free_records = free.iter().map(|&point| (walk::KIND_FREE, point));
    let mut records: Vec<(u8, u16)> = on_records.chain(free_records).collect();
    records.sort_by_key(|record| record.1);
    write_records(n as u8, &records)
}
