//! Why a call is refused, and where bytes are at fault. Follows document 01, section
//! "Refusal numbers", and for the numbers from 10 on document 02.

use std::error::Error;
use std::fmt;

/// Why a call is refused; a refused call leaves all lent memory as it was. The
/// variants from [`WrongKind`](Refusal::WrongKind) on say what is wrong with bytes; a
/// call that reads bytes gives the place of the fault with them, as [`Refused`].
/// docs/CALLS.md has what to do about each.
///
/// ```
/// use glospruma::Refusal;
///
/// assert_eq!(u8::from(Refusal::Room), 7);
/// assert_eq!(Refusal::try_from(7), Ok(Refusal::Room));
/// assert_eq!(Refusal::try_from(0), Err(0));
/// assert_eq!(Refusal::Room.to_string(), "an answer is longer than its lent room");
/// ```
#[derive(Clone, Copy, Debug, PartialEq, Eq, PartialOrd, Ord, Hash)]
#[repr(u8)]
pub enum Refusal {
    /// n is 0 or above 12.
    Variables = 1,
    /// A point of either list is 2^n or more.
    Point = 2,
    /// A point isn't greater than the one before it in its list.
    Order = 3,
    /// A point stands in both lists.
    Shared = 4,
    /// Listing with n above 6, or a form with n-k above 6: the restriction of its
    /// table has that many variables.
    Size = 5,
    /// Smallest affine space of an empty on set.
    Affine = 6,
    /// An answer is longer than its lent room.
    Room = 7,
    /// A listing place above the number of candidates.
    Place = 9,
    /// Two tables have different numbers of variables.
    Counts = 10,
    /// A first point above 2^n.
    FirstPoint = 11,
    /// A removal from a form with no product.
    EmptyForm = 12,
    /// The first 2^n records of the list aren't those of the form.
    Records = 17,
    /// A kind byte is unknown, or stands where it can't.
    WrongKind = 20,
    /// Bytes are missing.
    BytesMissing = 21,
    /// n of a form is 0 or above 12.
    WrongVariables = 22,
    /// A factor's constant is above 1, or its mask is 0 or 2^n or more.
    WrongFactor = 23,
    /// A factor doesn't agree with those before it in its product.
    NotCanonical = 24,
    /// The count in the end record isn't that of the points or products before it.
    WrongCount = 25,
    /// Bytes after the end.
    BytesAfter = 26,
    /// A product too many: a form has at most 64.
    TooManyProducts = 27,
}

impl Refusal {
    /// All refusals, by number.
    pub const ALL: [Refusal; 20] = [
        Refusal::Variables,
        Refusal::Point,
        Refusal::Order,
        Refusal::Shared,
        Refusal::Size,
        Refusal::Affine,
        Refusal::Room,
        Refusal::Place,
        Refusal::Counts,
        Refusal::FirstPoint,
        Refusal::EmptyForm,
        Refusal::Records,
        Refusal::WrongKind,
        Refusal::BytesMissing,
        Refusal::WrongVariables,
        Refusal::WrongFactor,
        Refusal::NotCanonical,
        Refusal::WrongCount,
        Refusal::BytesAfter,
        Refusal::TooManyProducts,
    ];

    /// Whether a place goes with it: whether it says what is wrong with bytes.
    pub fn has_place(self) -> bool {
        (Refusal::WrongKind..=Refusal::TooManyProducts).contains(&self)
    }
}

/// The refusal's number, 1 to 7, 9 to 12, 17 or 20 to 27.
impl From<Refusal> for u8 {
    fn from(refusal: Refusal) -> u8 {
        refusal as u8
    }
}

/// The refusal of a number; a number that no call gives is handed back.
impl TryFrom<u8> for Refusal {
    type Error = u8;

    fn try_from(number: u8) -> Result<Refusal, u8> {
        let found = Refusal::ALL
            .into_iter()
            .find(|&one| u8::from(one) == number);
        found.ok_or(number)
    }
}

/// When the refusal is given, in words; those of 1 to 7 and 9 are document 01's.
impl fmt::Display for Refusal {
    fn fmt(&self, formatter: &mut fmt::Formatter<'_>) -> fmt::Result {
        formatter.write_str(match self {
            Refusal::Variables => "n is 0 or above 12",
            Refusal::Point => "a point of either list is 2^n or more",
            Refusal::Order => "a point isn't greater than the one before it in its list",
            Refusal::Shared => "a point stands in both lists",
            Refusal::Size => "listing with n above 6, or a form with n-k above 6",
            Refusal::Affine => "smallest affine space of an empty on set",
            Refusal::Room => "an answer is longer than its lent room",
            Refusal::Place => "a listing place above the number of candidates",
            Refusal::Counts => "two tables have different numbers of variables",
            Refusal::FirstPoint => "a first point above 2^n",
            Refusal::EmptyForm => "a removal from a form with no product",
            Refusal::Records => "the first 2^n records of the list aren't those of the form",
            Refusal::WrongKind => "a kind byte is unknown, or stands where it can't",
            Refusal::BytesMissing => "bytes are missing",
            Refusal::WrongVariables => "n of a form is 0 or above 12",
            Refusal::WrongFactor => {
                "a factor's constant is above 1, or its mask is 0 or 2^n or more"
            }
            Refusal::NotCanonical => "a factor doesn't agree with those before it in its product",
            Refusal::WrongCount => {
                "the count in the end record isn't that of the points or products before it"
            }
            Refusal::BytesAfter => "bytes after the end",
            Refusal::TooManyProducts => "a product too many: a form has at most 64",
        })
    }
}

impl Error for Refusal {}

/// Why a call that reads bytes is refused, and where they are at fault. With `?` a
/// [`Refusal`] of another call becomes one too, with place 0.
///
/// ```
/// use glospruma::{form_points, Refusal, Refused};
///
/// // A form that was cut in the mask of its factor.
/// let cut = [0x4E, 4, 0x50, 0x58, 1];
/// let refused = form_points(&cut, &mut []).unwrap_err();
/// assert_eq!(refused, Refused { refusal: Refusal::BytesMissing, place: 5 });
/// assert_eq!(refused.to_string(), "refused 21 at 5: bytes are missing");
///
/// let short = Refused::from(Refusal::Room);
/// assert_eq!(short.to_string(), "refused 7: an answer is longer than its lent room");
/// ```
#[derive(Clone, Copy, Debug, PartialEq, Eq, Hash)]
pub struct Refused {
    /// Why.
    pub refusal: Refusal,
    /// Where, counted from 0: the first byte at fault, or the length of the input
    /// where bytes are missing; in a product that is appended, from its 50. 0 with a
    /// refusal that isn't one of bytes ([`has_place`](Refusal::has_place)).
    pub place: usize,
}

/// With place 0, as of a call that has no bytes to read.
impl From<Refusal> for Refused {
    fn from(refusal: Refusal) -> Refused {
        Refused { refusal, place: 0 }
    }
}

/// The number, the place if one goes with it, and the words: `refused 21 at 5: bytes
/// are missing`, or `refused 7: an answer is longer than its lent room`.
impl fmt::Display for Refused {
    fn fmt(&self, formatter: &mut fmt::Formatter<'_>) -> fmt::Result {
        let Refused { refusal, place } = *self;
        write!(formatter, "refused {}", u8::from(refusal))?;
        if refusal.has_place() {
            write!(formatter, " at {place}")?;
        }
        write!(formatter, ": {refusal}")
    }
}

impl Error for Refused {}

/// The refusal that a call returned by its number, if any.
pub(crate) fn check(number: u8) -> Result<(), Refusal> {
    match number {
        0 => Ok(()),
        _ => Err(Refusal::try_from(number).expect("the calls give no other number")),
    }
}

/// The refusal that a call which reads bytes returned by its number and place, if
/// any.
pub(crate) fn check_bytes(number: u8, place: usize) -> Result<(), Refused> {
    check(number).map_err(|refusal| Refused { refusal, place })
}
