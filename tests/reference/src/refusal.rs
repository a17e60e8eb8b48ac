//! The refusal numbers, each under a name, and a number with its place.
//! Follows document 01, section "Refusal numbers", and document 02, No. 1, No. 3 and No. 5:
//! 20 to 27 stand for what 8 was, and no call gives 8.

use std::fmt;
use std::ops::RangeInclusive;

/// Nothing is refused.
pub const NONE: u8 = 0;
/// n is 0 or above 12.
pub const VARIABLE_COUNT: u8 = 1;
/// A point of either list is 2^n or more.
pub const POINT_TOO_LARGE: u8 = 2;
/// A point isn't greater than the one before it in its list.
pub const NOT_RISING: u8 = 3;
/// A point stands in both lists.
pub const IN_BOTH_LISTS: u8 = 4;
/// Listing with n above 6, or a form with n-k above 6.
pub const ABOVE_SIX_VARIABLES: u8 = 5;
/// Smallest affine space of an empty on set.
pub const EMPTY_ON_SET: u8 = 6;
/// An answer is longer than its lent room.
pub const SHORT_ROOM: u8 = 7;
/// A listing place above the number of candidates.
pub const PLACE_TOO_LARGE: u8 = 9;
/// Two tables have different numbers of variables.
pub const COUNTS_DIFFER: u8 = 10;
/// The first point of a comparison is above 2^n.
pub const FIRST_POINT_TOO_LARGE: u8 = 11;
/// A removal from a form with no product.
pub const EMPTY_FORM: u8 = 12;
/// The first 2^n records of a list aren't those of the form.
pub const OTHER_RECORDS: u8 = 17;
/// A kind is unknown, or may not stand where it does.
pub const WRONG_KIND: u8 = 20;
/// Bytes are missing.
pub const BYTES_MISSING: u8 = 21;
/// A form's n is 0 or above 12.
pub const WRONG_VARIABLES: u8 = 22;
/// A factor's constant is above 1, or its mask is 0 or 2^n or more.
pub const WRONG_FACTOR: u8 = 23;
/// A factor doesn't agree with those before it in its product.
pub const NOT_CANONICAL: u8 = 24;
/// The last record has a wrong count.
pub const WRONG_COUNT: u8 = 25;
/// Bytes stand after the end.
pub const BYTES_AFTER: u8 = 26;
/// A product too many.
pub const TOO_MANY_PRODUCTS: u8 = 27;

/// The refusals that have a place.
pub const WITH_PLACE: RangeInclusive<u8> = WRONG_KIND..=TOO_MANY_PRODUCTS;

/// A refusal and the one number that goes with it: the place of the byte at fault,
/// or of the bytes that are missing, and 0 for a refusal that has no place.
#[derive(Clone, Copy, Debug, PartialEq, Eq)]
pub struct Refused {
    pub refusal: u8,
    pub place: usize,
}

impl Refused {
    /// A refusal that has a place.
    pub fn at(refusal: u8, place: usize) -> Refused {
        assert!(WITH_PLACE.contains(&refusal));
        Refused { refusal, place }
    }
}

impl From<u8> for Refused {
    /// A refusal that has no place.
    fn from(refusal: u8) -> Refused {
        assert!(!WITH_PLACE.contains(&refusal));
        Refused { refusal, place: 0 }
    }
}

impl fmt::Display for Refused {
    /// As a report prints it: with its place, if it has one.
    fn fmt(&self, formatter: &mut fmt::Formatter) -> fmt::Result {
        let Refused { refusal, place } = self;
        match WITH_PLACE.contains(refusal) {
            true => write!(formatter, "refused {refusal} at {place}"),
            false => write!(formatter, "refused {refusal}"),
        }
    }
}
