//! The calls of Glospruma: it reads a Boolean table with free points, finds its
//! linear space, canonical variables, reduction equations and restriction, the
//! smallest affine space of its on points and its primes, and writes it as an OR
//! of ANDs of XORs; it lays two tables side by side, and keeps an index of which
//! products of a form hold which point. Follows document 01, section "What the
//! library holds", and document 02.
//!
//! Points are numbers below 2^n, n from 1 to 12; x1 is the highest bit of a point
//! and xn its lowest. A table is n, a rising list of on points and a rising list
//! of free points; all other points are off. A call takes slices and lent rooms,
//! allocates nothing and needs at most 128 KiB of stack. Its answer borrows the
//! front of the room; the rest of the room is as it was. A refused call gives a
//! [`Refusal`], or where it reads bytes a [`Refused`], which has the place of the
//! fault beside it, and leaves every room as it was.
//!
//! ```
//! use glospruma::{analyse, write_form, Refusal};
//!
//! let on = [4, 5, 6, 7, 9, 10, 12, 13, 14, 15];
//! let mut room = [0; 16];
//! let found = analyse(4, &on, &[], &mut room)?;
//! assert_eq!(found.basis.as_slice(), [3]);
//! assert_eq!(found.restriction, [2, 3, 5, 6, 7]);
//!
//! let mut short = [0; 18];
//! let refusal = write_form(4, &on, &[], &mut short).unwrap_err();
//! assert_eq!(refusal, Refusal::Room);
//! # Ok::<(), Refusal>(())
//! ```
//!
//! From a stored table to the bytes of its form, and from these to its points,
//! with rooms that always suffice:
//!
//! ```
//! use glospruma::{form_points, read_table, write_form, Refused, MAX_POINTS, WRITTEN_ROOM};
//!
//! let stored = [0x4E, 3, 0x4F, 1, 0, 0x4F, 2, 0, 0x4F, 4, 0, 0x4F, 7, 0, 0x45, 4, 0];
//! let (mut on, mut free) = ([0; MAX_POINTS], [0; MAX_POINTS]);
//! let table = read_table(&stored, &mut on, &mut free)?;
//! let mut room = [0; WRITTEN_ROOM];
//! let form = write_form(table.variables, table.on, table.free, &mut room)?;
//! assert_eq!(form.bytes, [0x4E, 3, 0x50, 0x58, 1, 7, 0, 0x45, 1, 0]);
//! let mut points = [0; MAX_POINTS];
//! assert_eq!(form_points(form.bytes, &mut points)?.points, table.on);
//! # Ok::<(), Refused>(())
//! ```
//!
//! Where two stored tables differ:
//!
//! ```
//! use glospruma::{differences, Refused};
//!
//! let left = [0x4E, 2, 0x4F, 1, 0, 0x4F, 2, 0, 0x45, 2, 0];
//! let right = [0x4E, 2, 0x4F, 1, 0, 0x44, 2, 0, 0x4F, 3, 0, 0x45, 3, 0];
//! for differing in differences(&left, &right)? {
//!     println!("point {}: {}, {}", differing.point, differing.left, differing.right);
//! }
//! # let points: Vec<u16> = differences(&left, &right)?.map(|differing| differing.point).collect();
//! # assert_eq!(points, [2, 3]);
//! # Ok::<(), Refused>(())
//! ```
//!
//! Which product fires at an input pattern:
//!
//! ```
//! use glospruma::{index_append, index_build, Holders, PointRecord, Refused};
//! use glospruma::{FORM_ROOM, MAX_POINTS};
//!
//! // x2; or x1 and x2 differ, and an even number of x1, x3 and x4 is set.
//! let form = [
//!     0x4E, 4, 0x50, 0x58, 1, 4, 0, 0x50, 0x58, 1, 12, 0, 0x58, 0, 11, 0, 0x45, 2, 0,
//! ];
//! let mut list = [PointRecord::default(); MAX_POINTS];
//! let index = index_build(&form, &mut list)?;
//! assert_eq!(index.lookup(0b1001)?, Some(Holders { first: 1, count: 1 }));
//! assert_eq!(index.lookup(0b1011)?, None);
//!
//! // A product more: x1 and x3.
//! let product = [0x50, 0x58, 1, 8, 0, 0x58, 1, 2, 0];
//! let mut room = [0; FORM_ROOM];
//! let index = index_append(&form, &product, &mut list, &mut room)?;
//! assert_eq!(index.lookup(0b1011)?, Some(Holders { first: 2, count: 1 }));
//! # Ok::<(), Refused>(())
//! ```
//!
//! What is wrong with bytes, and where:
//!
//! ```
//! use glospruma::read_table;
//!
//! // The kind 46 is unknown; a free point has 44.
//! let stored = [0x4E, 2, 0x4F, 1, 0, 0x46, 2, 0, 0x45, 2, 0];
//! let refused = read_table(&stored, &mut [0; 4], &mut [0; 4]).unwrap_err();
//! let line = "refused 20 at 5: a kind byte is unknown, or stands where it can't";
//! assert_eq!(refused.to_string(), line);
//! ```
//!
//! [`raw`] has the same calls with their numbers as they come.
//!
//! To build: `bash tools/build glospruma` in the folder of the repository, once, and
//! then cargo finds the library by itself; the environment variable
//! `GLOSPRUMA_LIB_DIR` names another folder to look for `libglospruma.a` in.

pub mod raw;

mod comparison;
mod forms;
mod index;
mod primes;
mod refusal;
mod spaces;
mod stored;

pub use comparison::{compare, differences, Comparison, Difference, Differences, Mark};
pub use forms::{form_points, form_rewrite, write_form, FormPoints, RewrittenForm, WrittenForm};
pub use index::{index_append, index_build, index_lookup, index_remove, Holders, Index};
pub use primes::{list_primes, Listing, Prime};
pub use raw::{Basis, PointRecord, ShortList};
pub use refusal::{Refusal, Refused};
pub use spaces::{
    affine, analyse, complete, linear_space, AffineSpace, Analysis, Completion, LinearSpace,
};
pub use stored::{read_table, report, Report, Table};

/// The version of the package and of the library.
pub const VERSION: &str = env!("CARGO_PKG_VERSION");

/// The largest number of variables.
pub const MAX_VARIABLES: usize = 12;

/// Room for points that always suffices, and for the records of an index.
pub const MAX_POINTS: usize = 4096;

/// The largest number of variables of a listing.
pub const MAX_LISTED: usize = 6;

/// The largest number of variables for which free points are used by the largest
/// space; see [`complete`].
pub const MAX_SEARCHED: usize = 8;

/// Bytes of the longest stored table; a longer input is refused.
pub const TABLE_LENGTH: usize = 12_293;

/// Room that always suffices for the form written for a table.
pub const WRITTEN_ROOM: usize = 1555;

/// Room that always suffices for writing a form again, or with a product more or
/// less: bytes of the longest form.
pub const FORM_ROOM: usize = 3141;

/// Room that always suffices for a report.
pub const REPORT_ROOM: usize = 24_576;

/// Bytes of a record of the listing: degree, least point, six for basis vectors, and
/// the number of on points.
pub const RECORD_LENGTH: usize = 9;

/// Room that always suffices for all records of a table: six variables have 2,825
/// spaces, and a space has at most one prime.
pub const LISTING_ROOM: usize = 25_425;

/// Bytes of a record of a comparison.
pub const DIFFERENCE_LENGTH: usize = 4;

/// Room that always suffices for all records of two tables: each of 4,096 points
/// may differ.
pub const COMPARISON_ROOM: usize = 16_384;

/// The first product in the record of a point that no product holds.
pub const NO_PRODUCT: u16 = 65_535;

/// The numbers of candidates of 1 to 6 variables: the places at which a listing
/// ends.
pub const CANDIDATES: [u64; MAX_LISTED] = [3, 11, 51, 307, 2_451, 26_387];
