//! Places of a point that are dropped. Follows document 01, section "Points and
//! spaces".

/// A point without its bits at the places set in a mask, order of the others kept:
/// the highest place is dropped first.
pub fn without(mask: u16, point: u16) -> u16 {
    let (mut left, mut kept) = (mask, point);
    while left != 0 {
        let place = left.ilog2();
        let below = (1 << place) - 1;
        kept = (kept >> 1 & !below) | (kept & below);
        left ^= 1 << place;
    }
    kept
}
