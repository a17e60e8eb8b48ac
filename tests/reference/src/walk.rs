//! Steps that the readers of tables and of forms share: the kinds of record,
//! and a walk from the left that stops at the first fault and names its place.
//! Follows document 01, section "The written form", and document 02, No. 3.
//!
//! The place is the first byte at fault, or the length of the input where bytes
//! are missing. A body is judged only when all of it is there, and a fault in it
//! stands at its first byte; a wrong kind, or a product too many, stands at the
//! kind byte. Module `faults` judges the same bytes without a walk.

use crate::refusal::{self, Refused};

/// Kind of the first record, whose body is n.
pub const KIND_VARIABLES: u8 = 0x4E;
/// Kind of the record that begins a product.
pub const KIND_PRODUCT: u8 = 0x50;
/// Kind of a factor.
pub const KIND_FACTOR: u8 = 0x58;
/// Kind of the last record, whose body is a count.
pub const KIND_END: u8 = 0x45;
/// Kind of an on point.
pub const KIND_ON: u8 = 0x4F;
/// Kind of a free point.
pub const KIND_FREE: u8 = 0x44;

/// The kind byte at a place; missing bytes stand at the input's length.
pub fn kind_at(bytes: &[u8], place: usize) -> Result<u8, Refused> {
    match bytes.get(place) {
        Some(&kind) => Ok(kind),
        None => Err(Refused::at(refusal::BYTES_MISSING, bytes.len())),
    }
}

/// The whole body that starts at a place; a cut one is missing bytes.
pub fn body_at(bytes: &[u8], place: usize, length: usize) -> Result<&[u8], Refused> {
    if bytes.len() < place + length {
        return Err(Refused::at(refusal::BYTES_MISSING, bytes.len()));
    }
    Ok(&bytes[place..place + length])
}

/// A number of two bytes, low byte first.
pub fn number(body: &[u8]) -> u16 {
    u16::from(body[0]) + 256 * u16::from(body[1])
}

/// The two bytes of a number, low byte first.
pub fn number_bytes(number: u16) -> [u8; 2] {
    [(number % 256) as u8, (number / 256) as u8]
}

/// The first record: kind 4E and one byte, which is handed back unjudged.
pub fn first_record(bytes: &[u8]) -> Result<u8, Refused> {
    if kind_at(bytes, 0)? != KIND_VARIABLES {
        return Err(Refused::at(refusal::WRONG_KIND, 0));
    }
    Ok(body_at(bytes, 1, 1)?[0])
}

/// The last record, whose kind byte stands at `place`: its count must be
/// `expected`, and no byte may follow it.
pub fn last_record(bytes: &[u8], place: usize, expected: usize) -> Result<(), Refused> {
    let count = number(body_at(bytes, place + 1, 2)?);
    if usize::from(count) != expected {
        return Err(Refused::at(refusal::WRONG_COUNT, place + 1));
    }
    if bytes.len() > place + 3 {
        return Err(Refused::at(refusal::BYTES_AFTER, place + 3));
    }
    Ok(())
}
