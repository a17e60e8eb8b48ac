//! Two stored tables side by side. Follows document 02, No. 1.

use crate::raw;
use crate::refusal::{check_bytes, Refused};
use crate::DIFFERENCE_LENGTH;
use std::fmt;
use std::iter::FusedIterator;

/// What a table says of a point.
///
/// ```
/// use glospruma::Mark;
///
/// assert_eq!(u8::from(Mark::Free), 2);
/// assert_eq!(Mark::try_from(2), Ok(Mark::Free));
/// assert_eq!(Mark::try_from(3), Err(3));
/// assert_eq!(Mark::Free.to_string(), "free");
/// ```
#[derive(Clone, Copy, Debug, PartialEq, Eq, PartialOrd, Ord, Hash)]
#[repr(u8)]
pub enum Mark {
    /// The output is 0 there.
    Off = 0,
    /// The output is 1 there.
    On = 1,
    /// The output doesn't matter there.
    Free = 2,
}

/// The mark's number in a record, 0 to 2.
impl From<Mark> for u8 {
    fn from(mark: Mark) -> u8 {
        mark as u8
    }
}

/// The mark of a number; any number but 0 to 2 is handed back.
impl TryFrom<u8> for Mark {
    type Error = u8;

    fn try_from(number: u8) -> Result<Mark, u8> {
        match number {
            0 => Ok(Mark::Off),
            1 => Ok(Mark::On),
            2 => Ok(Mark::Free),
            _ => Err(number),
        }
    }
}

/// `off`, `on` or `free`.
impl fmt::Display for Mark {
    fn fmt(&self, formatter: &mut fmt::Formatter<'_>) -> fmt::Result {
        formatter.pad(match self {
            Mark::Off => "off",
            Mark::On => "on",
            Mark::Free => "free",
        })
    }
}

/// A point that two tables mark differently, as its record says.
#[derive(Clone, Copy, Debug, PartialEq, Eq)]
pub struct Difference {
    /// The point.
    pub point: u16,
    /// Its mark in the left table.
    pub left: Mark,
    /// Its mark in the right table.
    pub right: Mark,
}

impl Difference {
    /// The difference that a record of [`DIFFERENCE_LENGTH`] bytes holds.
    fn of_record(record: &[u8]) -> Difference {
        let mark = |number: u8| Mark::try_from(number).expect("the calls give no other mark");
        Difference {
            point: u16::from_le_bytes([record[0], record[1]]),
            left: mark(record[2]),
            right: mark(record[3]),
        }
    }
}

/// What a comparing call wrote and counted.
#[derive(Clone, Copy, Debug, PartialEq, Eq)]
pub struct Comparison<'a> {
    /// The point to go on from: the first that differs and didn't fit, or 2^n when
    /// done.
    pub next: usize,
    /// How many points of the whole tables differ, whatever the first point and the
    /// room.
    pub total: usize,
    /// The records of the differing points, [`DIFFERENCE_LENGTH`] bytes each.
    pub records: &'a [u8],
}

impl<'a> Comparison<'a> {
    /// The differences of the records, by rising points.
    pub fn differences(&self) -> impl ExactSizeIterator<Item = Difference> + 'a {
        self.records
            .chunks_exact(DIFFERENCE_LENGTH)
            .map(Difference::of_record)
    }
}

/// Lays two stored tables side by side from a first point on: for each point that
/// they mark differently a record goes to the room, points rising, until the end or
/// until one no longer fits. A listing starts at 0, goes on at
/// [`next`](Comparison::next) and ends at 2^n. With room for a record every call
/// gets further; with [`COMPARISON_ROOM`](crate::COMPARISON_ROOM) one call lists
/// all. [`differences`] makes all these calls by itself.
///
/// Refusals of the left table, as of [`read_table`] but for [`Room`], then the same of
/// the right one, then [`Counts`] and [`FirstPoint`]; a room that runs short is no
/// refusal. Neither the refusal nor its place tells which table it is of: where that
/// matters, read each with [`read_table`] first.
///
/// [`read_table`]: crate::read_table
/// [`Room`]: crate::Refusal::Room
/// [`Counts`]: crate::Refusal::Counts
/// [`FirstPoint`]: crate::Refusal::FirstPoint
///
/// ```
/// use glospruma::{compare, Difference, Mark, Refusal, Refused, DIFFERENCE_LENGTH};
///
/// // The same bands of payload, cut at one site in short tons and at the next in
/// // tonnes: on 4 5 6, free 7 in the one table, on 5 6 7 in the other.
/// let short_tons = [0x4E, 3, 0x4F, 4, 0, 0x4F, 5, 0, 0x4F, 6, 0, 0x44, 7, 0, 0x45, 4, 0];
/// let tonnes = [0x4E, 3, 0x4F, 5, 0, 0x4F, 6, 0, 0x4F, 7, 0, 0x45, 3, 0];
///
/// let mut room = [0; DIFFERENCE_LENGTH];
/// let found = compare(&short_tons, &tonnes, 0, &mut room)?;
/// let expected = Difference { point: 4, left: Mark::On, right: Mark::Off };
/// assert_eq!(found.differences().next(), Some(expected));
/// assert_eq!((found.next, found.total), (7, 2));
///
/// let rest = compare(&short_tons, &tonnes, found.next, &mut room)?;
/// let expected = Difference { point: 7, left: Mark::Free, right: Mark::On };
/// assert_eq!(rest.differences().next(), Some(expected));
/// assert_eq!((rest.next, rest.total), (8, 2));
///
/// let beyond = compare(&short_tons, &tonnes, 9, &mut room);
/// assert_eq!(beyond, Err(Refusal::FirstPoint.into()));
/// # Ok::<(), Refused>(())
/// ```
pub fn compare<'a>(
    left: &[u8],
    right: &[u8],
    first: usize,
    room: &'a mut [u8],
) -> Result<Comparison<'a>, Refused> {
    let found = raw::compare(left, right, first, room);
    check_bytes(found.refusal, found.place)?;
    Ok(Comparison {
        next: found.next,
        total: found.total,
        records: &room[..DIFFERENCE_LENGTH * found.records],
    })
}

/// Records that the room of [`Differences`] holds. Each call reads both tables
/// anew, so a smaller room would make many differences slow.
const RECORDS: usize = 256;

/// The differences of two stored tables, from [`differences`]: by rising points,
/// each once. It has a room of its own, of one KiB, and makes as many calls as it
/// needs.
#[derive(Clone, Debug)]
pub struct Differences<'a> {
    left: &'a [u8],
    right: &'a [u8],
    /// The records of the last call, and its numbers.
    room: [u8; RECORDS * DIFFERENCE_LENGTH],
    found: raw::Comparison,
    /// How many records of the room were given.
    given: usize,
    /// How many differences are still to be given.
    rest: usize,
}

/// All differences of two stored tables, without a room to lend; their number is
/// known at once. Refusals as of [`compare`], but never
/// [`FirstPoint`](crate::Refusal::FirstPoint).
///
/// ```
/// use glospruma::{differences, Difference, Mark, Refusal, Refused};
///
/// let short_tons = [0x4E, 3, 0x4F, 4, 0, 0x4F, 5, 0, 0x4F, 6, 0, 0x44, 7, 0, 0x45, 4, 0];
/// let tonnes = [0x4E, 3, 0x4F, 5, 0, 0x4F, 6, 0, 0x4F, 7, 0, 0x45, 3, 0];
/// let mut found = differences(&short_tons, &tonnes)?;
/// assert_eq!(found.total(), 2);
/// let expected = Difference { point: 4, left: Mark::On, right: Mark::Off };
/// assert_eq!(found.next(), Some(expected));
/// assert_eq!((found.len(), found.total()), (1, 2));
/// assert_eq!(found.next().map(|differing| differing.point), Some(7));
/// assert_eq!(found.next(), None);
/// let cut = Refused { refusal: Refusal::BytesMissing, place: 4 };
/// assert_eq!(differences(&short_tons, &tonnes[..4]).unwrap_err(), cut);
/// # Ok::<(), Refused>(())
/// ```
pub fn differences<'a>(left: &'a [u8], right: &'a [u8]) -> Result<Differences<'a>, Refused> {
    let mut room = [0; RECORDS * DIFFERENCE_LENGTH];
    let found = raw::compare(left, right, 0, &mut room);
    check_bytes(found.refusal, found.place)?;
    Ok(Differences {
        left,
        right,
        room,
        found,
        given: 0,
        rest: found.total,
    })
}

impl Differences<'_> {
    /// How many points of the whole tables differ, however many were given.
    pub fn total(&self) -> usize {
        self.found.total
    }
}

impl Iterator for Differences<'_> {
    type Item = Difference;

    fn next(&mut self) -> Option<Difference> {
        if self.rest == 0 {
            return None;
        }
        if self.given == self.found.records {
            let found = raw::compare(self.left, self.right, self.found.next, &mut self.room);
            check_bytes(found.refusal, found.place).expect("the same tables were accepted");
            self.found = found;
            self.given = 0;
        }
        let mut records = self.room.chunks_exact(DIFFERENCE_LENGTH);
        let record = records.nth(self.given)?;
        self.given += 1;
        self.rest -= 1;
        Some(Difference::of_record(record))
    }

    fn size_hint(&self) -> (usize, Option<usize>) {
        (self.rest, Some(self.rest))
    }
}

impl ExactSizeIterator for Differences<'_> {}

impl FusedIterator for Differences<'_> {}
