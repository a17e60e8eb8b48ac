//! Stored tables: reading one, and its printed report. Follows document 01,
//! sections "The written form" and "The printed report".

use crate::raw;
use crate::refusal::{check, check_bytes, Refusal, Refused};

/// A table that was read.
#[derive(Clone, Copy, Debug, PartialEq, Eq)]
pub struct Table<'a> {
    /// The number n of variables.
    pub variables: usize,
    /// The on points, rising.
    pub on: &'a [u16],
    /// The free points, rising.
    pub free: &'a [u16],
}

/// Reads a stored table into two rooms: the bytes 4E n; then, points rising, 4F and
/// an on point or 44 and a free point; then 45 and the number of points. Points
/// and their number have two bytes, the low one first. Refusals of the bytes, with
/// their place: [`WrongKind`](Refusal::WrongKind),
/// [`BytesMissing`](Refusal::BytesMissing), [`WrongCount`](Refusal::WrongCount),
/// [`BytesAfter`](Refusal::BytesAfter); then [`Variables`](Refusal::Variables),
/// [`Point`](Refusal::Point), [`Order`](Refusal::Order), then
/// [`Room`](Refusal::Room) if either room is short, and then neither is written.
///
/// ```
/// use glospruma::{read_table, Refusal, Refused};
///
/// let bytes = [0x4E, 2, 0x4F, 0, 0, 0x44, 1, 0, 0x44, 2, 0, 0x45, 3, 0];
/// let (mut on, mut free) = ([0; 4], [0; 4]);
/// let table = read_table(&bytes, &mut on, &mut free)?;
/// assert_eq!((table.variables, table.on, table.free), (2, &[0][..], &[1, 2][..]));
///
/// let cut = Refused { refusal: Refusal::BytesMissing, place: 13 };
/// assert_eq!(read_table(&bytes[..13], &mut on, &mut free), Err(cut));
/// # Ok::<(), Refused>(())
/// ```
pub fn read_table<'a>(
    bytes: &[u8],
    on: &'a mut [u16],
    free: &'a mut [u16],
) -> Result<Table<'a>, Refused> {
    let found = raw::read_table(bytes, on, free);
    check_bytes(found.refusal, found.place)?;
    Ok(Table {
        variables: found.variables,
        on: &on[..found.on_count],
        free: &free[..found.free_count],
    })
}

/// The printed report of a stored table.
#[derive(Clone, Copy, Debug, PartialEq, Eq)]
pub struct Report<'a> {
    /// The whole text; every line ends in a newline.
    pub text: &'a str,
}

/// Writes the report of a stored table to the room. Its degree line ends in ` simple`
/// where the table has more than [`MAX_SEARCHED`](crate::MAX_SEARCHED) variables and
/// free points. A table that is refused has the report `refused N`, or
/// `refused N at PLACE` where its bytes are at fault; the call itself is refused with
/// [`Room`](Refusal::Room) alone.
///
/// ```
/// use glospruma::{report, Refusal, REPORT_ROOM};
///
/// let mut room = [0; REPORT_ROOM];
/// let found = report(&[0x4E, 1, 0x4F, 0, 0, 0x45, 1, 0], &mut room)?;
/// assert!(found.text.ends_with("\nrestriction 0\nproduct x1=0\n"));
/// assert_eq!(report(&[], &mut room)?.text, "refused 21 at 0\n");
/// # Ok::<(), Refusal>(())
/// ```
pub fn report<'a>(bytes: &[u8], room: &'a mut [u8]) -> Result<Report<'a>, Refusal> {
    let found = raw::report(bytes, room);
    check(found.refusal)?;
    let text = std::str::from_utf8(&room[..found.length]);
    Ok(Report {
        text: text.expect("a report has letters, digits and signs of ASCII alone"),
    })
}
