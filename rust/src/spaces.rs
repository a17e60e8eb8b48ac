//! Linear spaces, completed functions, restrictions and affine spaces. Follows
//! document 01, section "Points and spaces".

use crate::raw::{self, Basis, ShortList};
use crate::refusal::{check, Refusal};

/// The linear space of a complete function.
#[derive(Clone, Copy, Debug, PartialEq, Eq)]
pub struct LinearSpace {
    /// Its dimension.
    pub degree: usize,
    /// Its reduced basis.
    pub basis: Basis,
}

/// The linear space of the function that is on at the given points and off
/// elsewhere. Refusals [`Variables`](Refusal::Variables),
/// [`Point`](Refusal::Point), [`Order`](Refusal::Order).
///
/// ```
/// use glospruma::{linear_space, Refusal};
///
/// let space = linear_space(3, &[1, 2, 4, 7])?;
/// assert_eq!((space.degree, space.basis.as_slice()), (2, &[3, 5][..]));
/// assert_eq!(linear_space(3, &[8]), Err(Refusal::Point));
/// # Ok::<(), Refusal>(())
/// ```
pub fn linear_space(n: usize, on: &[u16]) -> Result<LinearSpace, Refusal> {
    let found = raw::linear_space(n, on);
    check(found.refusal)?;
    Ok(LinearSpace {
        degree: found.degree,
        basis: found.basis,
    })
}

/// The completed function of a table.
#[derive(Clone, Copy, Debug, PartialEq, Eq)]
pub struct Completion<'a> {
    /// Its on points, rising.
    pub points: &'a [u16],
    /// Its degree, which is never below k0 nor k1.
    pub degree: usize,
    /// The degree k0, with all free points off.
    pub k0: usize,
    /// The degree k1, with all free points on.
    pub k1: usize,
}

/// Completes a table; the on points of the completed function go to the room. Up to
/// [`MAX_SEARCHED`](crate::MAX_SEARCHED) variables they are every on point XOR every
/// vector of the largest space of vectors that take each on point to an on or free
/// point; of several such spaces the one whose reduced basis comes first. For more
/// variables free points are all on if that has the larger degree, and otherwise all
/// off. Refusals [`Variables`](Refusal::Variables), [`Point`](Refusal::Point),
/// [`Order`](Refusal::Order), [`Shared`](Refusal::Shared), then
/// [`Room`](Refusal::Room).
///
/// ```
/// use glospruma::{complete, Refusal};
///
/// let mut room = [0; 4];
/// let found = complete(2, &[0], &[1, 2], &mut room)?;
/// assert_eq!((found.points, found.degree), (&[0, 1][..], 1));
/// assert_eq!((found.k0, found.k1), (0, 0));
/// assert_eq!(complete(2, &[0], &[0], &mut room), Err(Refusal::Shared));
/// # Ok::<(), Refusal>(())
/// ```
pub fn complete<'a>(
    n: usize,
    on: &[u16],
    free: &[u16],
    room: &'a mut [u16],
) -> Result<Completion<'a>, Refusal> {
    let found = raw::complete(n, on, free, room);
    check(found.refusal)?;
    Ok(Completion {
        points: &room[..found.count],
        degree: found.degree,
        k0: found.k0,
        k1: found.k1,
    })
}

/// The completed function of a table, analysed.
#[derive(Clone, Copy, Debug, PartialEq, Eq)]
pub struct Analysis<'a> {
    /// The degree of the completed function.
    pub degree: usize,
    /// The reduced basis of its linear space.
    pub basis: Basis,
    /// The indices of the canonical variables, rising; x1 has index 1.
    pub canonical: ShortList,
    /// The right sides of the equations of y1, y2 and so on, as masks.
    pub equations: ShortList,
    /// The points of the restriction, rising.
    pub restriction: &'a [u16],
}

/// Analyses the completed function of a table; the points of its restriction go
/// to the room. Refusals [`Variables`](Refusal::Variables),
/// [`Point`](Refusal::Point), [`Order`](Refusal::Order),
/// [`Shared`](Refusal::Shared), then [`Room`](Refusal::Room).
///
/// ```
/// use glospruma::{analyse, Refusal};
///
/// let mut room = [0; 8];
/// let found = analyse(3, &[1, 2, 4, 7], &[], &mut room)?;
/// assert_eq!(found.canonical.as_slice(), [1, 2]);
/// assert_eq!(found.equations.as_slice(), [0b111]);
/// assert_eq!(found.restriction, [1]);
/// # Ok::<(), Refusal>(())
/// ```
pub fn analyse<'a>(
    n: usize,
    on: &[u16],
    free: &[u16],
    room: &'a mut [u16],
) -> Result<Analysis<'a>, Refusal> {
    let found = raw::analyse(n, on, free, room);
    check(found.refusal)?;
    Ok(Analysis {
        degree: found.degree,
        basis: found.basis,
        canonical: found.canonical,
        equations: found.equations,
        restriction: &room[..found.count],
    })
}

/// The smallest affine space of an on set.
#[derive(Clone, Copy, Debug, PartialEq, Eq)]
pub struct AffineSpace<'a> {
    /// The least point of the space, which need not be on.
    pub least: u16,
    /// Its dimension; below n the on set is D-reducible.
    pub dimension: usize,
    /// The reduced basis of its directions.
    pub basis: Basis,
    /// The projection of the on points, rising.
    pub projection: &'a [u16],
}

/// The smallest affine space that holds the on points; their projection goes to
/// the room. Refusals [`Variables`](Refusal::Variables),
/// [`Point`](Refusal::Point), [`Order`](Refusal::Order),
/// [`Affine`](Refusal::Affine), then [`Room`](Refusal::Room).
///
/// ```
/// use glospruma::{affine, Refusal};
///
/// let mut room = [0; 8];
/// let space = affine(4, &[2, 4, 6, 11, 13], &mut room)?;
/// assert_eq!((space.least, space.basis.as_slice()), (0, &[2, 4, 9][..]));
/// assert_eq!(space.projection, [1, 2, 3, 5, 6]);
/// assert_eq!(affine(4, &[], &mut room), Err(Refusal::Affine));
/// # Ok::<(), Refusal>(())
/// ```
pub fn affine<'a>(n: usize, on: &[u16], room: &'a mut [u16]) -> Result<AffineSpace<'a>, Refusal> {
    let found = raw::affine(n, on, room);
    check(found.refusal)?;
    Ok(AffineSpace {
        least: found.least,
        dimension: found.dimension,
        basis: found.basis,
        projection: &room[..found.count],
    })
}
