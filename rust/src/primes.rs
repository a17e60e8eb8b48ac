//! The listing of primes. Follows document 01, section "Primes", and document 02,
//! No. 6.

use crate::raw;
use crate::refusal::{check, Refusal};
use crate::RECORD_LENGTH;

/// What a listing call passed and wrote.
#[derive(Clone, Copy, Debug, PartialEq, Eq)]
pub struct Listing<'a> {
    /// The place to go on from.
    pub next: u64,
    /// Candidates passed: the next place less the place.
    pub passed: u64,
    /// The records of the primes passed, [`RECORD_LENGTH`] bytes each.
    pub records: &'a [u8],
}

/// One prime, as its record says.
#[derive(Clone, Copy, Debug, PartialEq, Eq)]
pub struct Prime<'a> {
    /// The logarithm to base 2 of its size.
    pub degree: u8,
    /// Its least point.
    pub least: u8,
    /// The reduced basis of its directions, as many vectors as the degree.
    pub basis: &'a [u8],
    /// The number of on points in it, 1 to 64. Free points don't count.
    pub on_count: u8,
}

impl<'a> Listing<'a> {
    /// The primes of the records, in order.
    pub fn primes(&self) -> impl Iterator<Item = Prime<'a>> {
        self.records
            .chunks_exact(RECORD_LENGTH)
            .map(|record| Prime {
                degree: record[0],
                least: record[1],
                basis: &record[2..2 + usize::from(record[0])],
                on_count: record[RECORD_LENGTH - 1],
            })
    }
}

/// Lists the primes of a table from a place on: passes candidates in order until
/// the end, until the allowance of candidates is spent, or until a prime no
/// longer fits the room, to which the records go. A place is a number of
/// candidates behind: a listing starts at 0, goes on at [`next`](Listing::next) and
/// ends at the number of [`CANDIDATES`](crate::CANDIDATES). With an allowance and
/// room for a record every call gets further; with `u64::MAX` and
/// [`LISTING_ROOM`](crate::LISTING_ROOM) one call lists all. Refusals
/// [`Variables`](Refusal::Variables),
/// [`Point`](Refusal::Point), [`Order`](Refusal::Order),
/// [`Shared`](Refusal::Shared), [`Size`](Refusal::Size),
/// [`Place`](Refusal::Place); a room that runs short is no refusal.
///
/// ```
/// use glospruma::{list_primes, Refusal, CANDIDATES, RECORD_LENGTH};
///
/// let (n, on) = (3, [2, 3, 5, 6, 7]);
/// let mut room = [0; 2 * RECORD_LENGTH];
/// let (mut place, mut found) = (0, Vec::new());
/// while place < CANDIDATES[n - 1] {
///     let listing = list_primes(n, &on, &[], place, u64::MAX, &mut room)?;
///     let primes = listing.primes();
///     found.extend(primes.map(|prime| (prime.least, prime.basis.to_vec(), prime.on_count)));
///     place = listing.next;
/// }
/// assert_eq!(found[0], (2, vec![1, 4], 4));
/// assert_eq!(found[1..].len(), 4);
/// assert_eq!(list_primes(3, &on, &[], 52, 1, &mut room), Err(Refusal::Place));
/// # Ok::<(), Refusal>(())
/// ```
pub fn list_primes<'a>(
    n: usize,
    on: &[u16],
    free: &[u16],
    place: u64,
    allowance: u64,
    room: &'a mut [u8],
) -> Result<Listing<'a>, Refusal> {
    let found = raw::list_primes(n, on, free, place, allowance, room);
    check(found.refusal)?;
    Ok(Listing {
        next: found.next,
        passed: found.passed,
        records: &room[..RECORD_LENGTH * found.records],
    })
}
