//! The tests on two lists, flags of points, and room for points. Follows document
//! 01, section "Refusal numbers".

use glospruma::{MAX_POINTS, MAX_VARIABLES};

/// One flag to a point.
pub type Flags = [bool; MAX_POINTS];

/// Sets the flags of the points of a list.
pub fn mark(flags: &mut Flags, points: &[u16]) {
    for &point in points {
        flags[usize::from(point)] = true;
    }
}

/// Whether a point of the list is 2^n or more.
fn has_large(n: usize, points: &[u16]) -> bool {
    points.iter().any(|&point| usize::from(point) >= 1 << n)
}

/// Whether a point isn't greater than the one before it.
fn has_falling(points: &[u16]) -> bool {
    points.windows(2).any(|pair| pair[0] >= pair[1])
}

/// The flags of the on points, or refusal 1, 2, 3 or 4.
pub fn checked(n: usize, on: &[u16], free: &[u16]) -> Result<Flags, u8> {
    if n == 0 || n > MAX_VARIABLES {
        return Err(1);
    }
    if has_large(n, on) || has_large(n, free) {
        return Err(2);
    }
    if has_falling(on) || has_falling(free) {
        return Err(3);
    }
    let mut flags = [false; MAX_POINTS];
    mark(&mut flags, on);
    if free.iter().any(|&point| flags[usize::from(point)]) {
        return Err(4);
    }
    Ok(flags)
}

/// Writes so many points to the front of the room; refusal 7 if they don't fit.
pub fn write(points: impl Iterator<Item = u16>, count: usize, room: &mut [u16]) -> Result<(), u8> {
    let front = room.get_mut(..count).ok_or(7)?;
    for (entry, point) in front.iter_mut().zip(points) {
        *entry = point;
    }
    Ok(())
}
