//! Written forms: the form of a table, and reading a form. Follows document 01,
//! section "The written form"; docs/CALLS.md, "The bytes", has every rule.

use crate::raw;
use crate::refusal::{check, check_bytes, Refusal, Refused};

/// The form written for a table.
#[derive(Clone, Copy, Debug, PartialEq, Eq)]
pub struct WrittenForm<'a> {
    /// Its bytes.
    pub bytes: &'a [u8],
    /// How many products it has.
    pub products: usize,
}

/// Writes the form of the completed function of a table to the room: the bytes 4E
/// n; for each product 50, and 58, constant and mask for each factor; then 45 and
/// the number of products. Masks and that number have two bytes, the low one
/// first. A factor is true where the XOR of its mask's variables is the constant.
/// Refusals [`Variables`](Refusal::Variables), [`Point`](Refusal::Point),
/// [`Order`](Refusal::Order), [`Shared`](Refusal::Shared),
/// [`Size`](Refusal::Size), then [`Room`](Refusal::Room).
///
/// ```
/// use glospruma::{write_form, Refusal, WRITTEN_ROOM};
///
/// let mut room = [0; WRITTEN_ROOM];
/// let form = write_form(3, &[1, 2, 4, 7], &[], &mut room)?;
/// assert_eq!(form.bytes, [0x4E, 3, 0x50, 0x58, 1, 7, 0, 0x45, 1, 0]);
/// assert_eq!(form.products, 1);
/// assert_eq!(write_form(7, &[1], &[], &mut room), Err(Refusal::Size));
/// # Ok::<(), Refusal>(())
/// ```
pub fn write_form<'a>(
    n: usize,
    on: &[u16],
    free: &[u16],
    room: &'a mut [u8],
) -> Result<WrittenForm<'a>, Refusal> {
    let found = raw::write_form(n, on, free, room);
    check(found.refusal)?;
    Ok(WrittenForm {
        bytes: &room[..found.length],
        products: found.products,
    })
}

/// The points of a form.
#[derive(Clone, Copy, Debug, PartialEq, Eq)]
pub struct FormPoints<'a> {
    /// The number n of variables.
    pub variables: usize,
    /// The points at which some product is true, rising.
    pub points: &'a [u16],
}

/// Reads a form; its points go to the room. Refusals of the bytes, with their place:
/// [`WrongKind`](Refusal::WrongKind), [`BytesMissing`](Refusal::BytesMissing),
/// [`WrongVariables`](Refusal::WrongVariables),
/// [`WrongFactor`](Refusal::WrongFactor), [`NotCanonical`](Refusal::NotCanonical),
/// [`WrongCount`](Refusal::WrongCount), [`BytesAfter`](Refusal::BytesAfter),
/// [`TooManyProducts`](Refusal::TooManyProducts); then [`Room`](Refusal::Room).
///
/// ```
/// use glospruma::{form_points, Refusal, Refused};
///
/// let form = [0x4E, 3, 0x50, 0x58, 1, 7, 0, 0x45, 1, 0];
/// let mut room = [0; 8];
/// let found = form_points(&form, &mut room)?;
/// assert_eq!((found.variables, found.points), (3, &[1, 2, 4, 7][..]));
///
/// // The constant of the factor is 2.
/// let damaged = [0x4E, 3, 0x50, 0x58, 2, 7, 0, 0x45, 1, 0];
/// let refused = Refused { refusal: Refusal::WrongFactor, place: 4 };
/// assert_eq!(form_points(&damaged, &mut room), Err(refused));
/// # Ok::<(), Refused>(())
/// ```
pub fn form_points<'a>(bytes: &[u8], room: &'a mut [u16]) -> Result<FormPoints<'a>, Refused> {
    let found = raw::form_points(bytes, room);
    check_bytes(found.refusal, found.place)?;
    Ok(FormPoints {
        variables: found.variables,
        points: &room[..found.count],
    })
}

/// A form read and written again.
#[derive(Clone, Copy, Debug, PartialEq, Eq)]
pub struct RewrittenForm<'a> {
    /// Its bytes, the same as were read.
    pub bytes: &'a [u8],
}

/// Reads a form and writes what was read to the room: the same bytes. Refusals as of
/// [`form_points`].
///
/// ```
/// use glospruma::{form_rewrite, Refusal, Refused};
///
/// let form = [0x4E, 1, 0x45, 0, 0];
/// let mut room = [0; 5];
/// assert_eq!(form_rewrite(&form, &mut room)?.bytes, form);
/// assert_eq!(form_rewrite(&form, &mut room[..4]), Err(Refusal::Room.into()));
/// # Ok::<(), Refused>(())
/// ```
pub fn form_rewrite<'a>(bytes: &[u8], room: &'a mut [u8]) -> Result<RewrittenForm<'a>, Refused> {
    let found = raw::form_rewrite(bytes, room);
    check_bytes(found.refusal, found.place)?;
    Ok(RewrittenForm {
        bytes: &room[..found.length],
    })
}
