//! An index of a form: for each point how many products hold it, and the first of
//! them. Follows document 02, No. 5.

use crate::raw;
use crate::refusal::{check_bytes, Refusal, Refused};
use crate::{PointRecord, MAX_VARIABLES};

/// The products that hold a point.
#[derive(Clone, Copy, Debug, PartialEq, Eq)]
pub struct Holders {
    /// The first of them, counted from 0 in the order of the form: the product that
    /// fires.
    pub first: usize,
    /// How many there are.
    pub count: usize,
}

impl PointRecord {
    /// The products that hold the point, or none.
    ///
    /// ```
    /// use glospruma::{Holders, PointRecord};
    ///
    /// let record = PointRecord { count: 2, first: 5 };
    /// assert_eq!(record.holders(), Some(Holders { first: 5, count: 2 }));
    /// assert_eq!(PointRecord::default().holders(), None);
    /// ```
    pub fn holders(self) -> Option<Holders> {
        (self.count > 0).then_some(Holders {
            first: self.first.into(),
            count: self.count.into(),
        })
    }
}

/// An index and the form that it belongs to.
#[derive(Clone, Copy, Debug, PartialEq, Eq)]
pub struct Index<'a> {
    /// The number n of variables.
    pub variables: usize,
    /// How many products the form has.
    pub products: usize,
    /// The bytes of the form: those that were read, or after a change those in the
    /// room.
    pub form: &'a [u8],
    /// The records of the points, 2^n of them.
    pub records: &'a [PointRecord],
}

impl<'a> Index<'a> {
    /// The index that a call left in a list, and its form.
    fn new(
        found: raw::Indexed,
        form: &'a [u8],
        list: &'a [PointRecord],
    ) -> Result<Index<'a>, Refused> {
        check_bytes(found.refusal, found.place)?;
        Ok(Index {
            variables: found.variables,
            products: found.products,
            form: &form[..found.length],
            records: &list[..1 << found.variables],
        })
    }

    /// The products that hold a point, or none; as [`index_lookup`].
    pub fn lookup(&self, point: u16) -> Result<Option<Holders>, Refusal> {
        index_lookup(self.variables, self.records, point)
    }
}

/// Looks a point up in the list of an index of n variables: the first product that
/// holds it and how many do, or none. One record is read, whatever the form's size;
/// the list isn't compared with a form. Refusals [`Variables`](Refusal::Variables),
/// [`Point`](Refusal::Point) if the point is 2^n or more, and [`Room`](Refusal::Room)
/// if the list is shorter than 2^n.
///
/// ```
/// use glospruma::{index_build, index_lookup, PointRecord, Refusal, Refused, MAX_POINTS};
///
/// // x1 and x2 both set; or x1 set.
/// let form = [
///     0x4E, 2, 0x50, 0x58, 1, 2, 0, 0x58, 1, 1, 0, 0x50, 0x58, 1, 2, 0, 0x45, 2, 0,
/// ];
/// let mut list = [PointRecord::default(); MAX_POINTS];
/// let n = index_build(&form, &mut list)?.variables;
/// let fires = |point| Ok(index_lookup(n, &list, point)?.map(|holders| holders.first));
/// assert_eq!([0, 1, 2, 3].map(fires), [Ok(None), Ok(None), Ok(Some(1)), Ok(Some(0))]);
/// assert_eq!(fires(4), Err(Refusal::Point));
/// # Ok::<(), Refused>(())
/// ```
pub fn index_lookup(
    n: usize,
    list: &[PointRecord],
    point: u16,
) -> Result<Option<Holders>, Refusal> {
    if !(1..=MAX_VARIABLES).contains(&n) {
        return Err(Refusal::Variables);
    }
    if usize::from(point) >= 1 << n {
        return Err(Refusal::Point);
    }
    let records = list.get(..1 << n).ok_or(Refusal::Room)?;
    Ok(records[usize::from(point)].holders())
}

/// Builds the index of a form in a lent list: the first 2^n records become those of
/// the points, and the others stay. Refusals of the form as of
/// [`form_points`](crate::form_points), with their place; then
/// [`Room`](Refusal::Room) if the list is shorter than 2^n.
///
/// ```
/// use glospruma::{index_build, Holders, PointRecord, Refusal, Refused};
///
/// // x1; or x1 and x2 differ.
/// let form = [0x4E, 2, 0x50, 0x58, 1, 2, 0, 0x50, 0x58, 1, 3, 0, 0x45, 2, 0];
/// let mut list = [PointRecord::default(); 4];
/// let index = index_build(&form, &mut list)?;
/// assert_eq!((index.variables, index.products), (2, 2));
/// assert_eq!(index.lookup(0)?, None);
/// assert_eq!(index.lookup(1)?, Some(Holders { first: 1, count: 1 }));
/// assert_eq!(index.lookup(2)?, Some(Holders { first: 0, count: 2 }));
/// assert_eq!(index_build(&form, &mut list[..3]), Err(Refusal::Room.into()));
/// # Ok::<(), Refused>(())
/// ```
pub fn index_build<'a>(form: &'a [u8], list: &'a mut [PointRecord]) -> Result<Index<'a>, Refused> {
    let found = raw::index_build(form, list);
    Index::new(found, form, list)
}

/// Appends a product to a form. The product comes as the bytes 50 and its factors,
/// each 58, constant and mask; the bytes 50 alone are the product that is true
/// everywhere. The new form goes to the room, and the list, which holds the index of
/// the form, then holds that of the new one; records of points that the product
/// doesn't hold stay. To go on, take the form from the room, and lend another room.
///
/// Refusals of the form as of [`form_points`](crate::form_points); then of the
/// product, with the place from its 50: [`WrongKind`](Refusal::WrongKind),
/// [`BytesMissing`](Refusal::BytesMissing), [`WrongFactor`](Refusal::WrongFactor),
/// [`NotCanonical`](Refusal::NotCanonical); then [`Room`](Refusal::Room) if the list
/// is shorter than 2^n, [`Records`](Refusal::Records),
/// [`TooManyProducts`](Refusal::TooManyProducts) at place 0, and
/// [`Room`](Refusal::Room) if the room is short. [`FORM_ROOM`](crate::FORM_ROOM)
/// always suffices.
///
/// ```
/// use glospruma::{index_append, index_build, Holders, PointRecord, Refusal, Refused};
///
/// let form = [0x4E, 2, 0x50, 0x58, 1, 2, 0, 0x45, 1, 0];
/// let mut list = [PointRecord::default(); 4];
/// index_build(&form, &mut list)?;
///
/// // x1 and x2 differ.
/// let product = [0x50, 0x58, 1, 3, 0];
/// let mut room = [0; 15];
/// let index = index_append(&form, &product, &mut list, &mut room)?;
/// assert_eq!(index.form, [0x4E, 2, 0x50, 0x58, 1, 2, 0, 0x50, 0x58, 1, 3, 0, 0x45, 2, 0]);
/// assert_eq!(index.lookup(1)?, Some(Holders { first: 1, count: 1 }));
/// assert_eq!(index.lookup(2)?, Some(Holders { first: 0, count: 2 }));
///
/// // The list is that of the new form now.
/// let again = index_append(&form, &product, &mut list, &mut room);
/// assert_eq!(again, Err(Refusal::Records.into()));
/// # Ok::<(), Refused>(())
/// ```
pub fn index_append<'a>(
    form: &[u8],
    product: &[u8],
    list: &'a mut [PointRecord],
    room: &'a mut [u8],
) -> Result<Index<'a>, Refused> {
    let found = raw::index_append(form, product, list, room);
    Index::new(found, room, list)
}

/// Takes the last product away from a form. The new form goes to the room, and the
/// list, which holds the index of the form, then holds that of the new one; records
/// of points that the product doesn't hold stay.
///
/// Refusals of the form as of [`form_points`](crate::form_points); then
/// [`Room`](Refusal::Room) if the list is shorter than 2^n,
/// [`Records`](Refusal::Records), [`EmptyForm`](Refusal::EmptyForm), and
/// [`Room`](Refusal::Room) if the room is short.
///
/// ```
/// use glospruma::{index_build, index_remove, PointRecord, Refusal, Refused};
///
/// let form = [0x4E, 2, 0x50, 0x58, 1, 2, 0, 0x45, 1, 0];
/// let mut list = [PointRecord::default(); 4];
/// index_build(&form, &mut list)?;
/// let mut room = [0; 5];
/// let index = index_remove(&form, &mut list, &mut room)?;
/// assert_eq!((index.form, index.products), (&[0x4E, 2, 0x45, 0, 0][..], 0));
/// assert_eq!(index.lookup(2)?, None);
/// let none = index_remove(&[0x4E, 2, 0x45, 0, 0], &mut list, &mut room);
/// assert_eq!(none, Err(Refusal::EmptyForm.into()));
/// # Ok::<(), Refused>(())
/// ```
pub fn index_remove<'a>(
    form: &[u8],
    list: &'a mut [PointRecord],
    room: &'a mut [u8],
) -> Result<Index<'a>, Refused> {
    let found = raw::index_remove(form, list, room);
    Index::new(found, room, list)
}
