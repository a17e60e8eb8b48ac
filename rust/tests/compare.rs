//! Two stored tables side by side, through the safe calls: differing points with
//! both marks in rooms of every kind, the iterator over more differences than its
//! room holds, and refusals in their order, after which lent memory is as it was.
//! Every room is as long as its answer, or a little longer, so that a tool that
//! watches memory sees each access beyond. Follows document 02, No. 1.

use glospruma::{
    compare, differences, raw, Difference, Mark, Refusal, Refused, COMPARISON_ROOM,
    DIFFERENCE_LENGTH, MAX_POINTS, MAX_VARIABLES,
};
use Mark::{Free, Off, On};

/// What a lent room holds before a call.
const PAINT: u8 = 9;

/// The bytes of a stored table that has these marks, by points: 2^n of them.
fn stored(marks: &[Mark]) -> Vec<u8> {
    let mut bytes = vec![0x4E, marks.len().ilog2() as u8];
    let mut count = 0u16;
    for (point, mark) in (0u16..).zip(marks) {
        let kind = match mark {
            Off => continue,
            On => 0x4F,
            Free => 0x44,
        };
        bytes.push(kind);
        bytes.extend(point.to_le_bytes());
        count += 1;
    }
    bytes.push(0x45);
    bytes.extend(count.to_le_bytes());
    bytes
}

/// Bands of payload, and whether the retarder helps. One site cut them in short
/// tons, which are lighter, so that it helps a band earlier; and the site has no
/// truck for the last band.
fn short_tons() -> Vec<u8> {
    stored(&[Off, Off, Off, Free, On, On, On, Free])
}

/// The same at the next site, which cut them in tonnes.
fn tonnes() -> Vec<u8> {
    stored(&[Off, Off, Off, Off, Free, On, On, On])
}

/// What differs between the two, with the left mark first.
const SITES: [(u16, Mark, Mark); 3] = [(3, Free, Off), (4, On, Free), (7, Free, On)];

fn triple(found: Difference) -> (u16, Mark, Mark) {
    (found.point, found.left, found.right)
}

/// All differences by the iterator, whose length is right before each of them.
fn all(left: &[u8], right: &[u8]) -> Vec<(u16, Mark, Mark)> {
    let mut found = differences(left, right).expect("accepted");
    let total = found.total();
    let mut listed = vec![];
    while let Some(difference) = found.next() {
        listed.push(triple(difference));
        assert_eq!((found.total(), found.len()), (total, total - listed.len()));
    }
    assert_eq!((listed.len(), found.next()), (total, None));
    listed
}

#[test]
fn two_sites() {
    let (left, right) = (short_tons(), tonnes());
    let mut room = vec![PAINT; 13];
    let found = compare(&left, &right, 0, &mut room).expect("accepted");
    assert_eq!((found.next, found.total), (8, 3));
    assert_eq!(found.records, [3, 0, 2, 0, 4, 0, 1, 2, 7, 0, 2, 1]);
    assert!(found.differences().map(triple).eq(SITES));
    assert_eq!(found.differences().len(), 3);
    assert_eq!(room[12], PAINT);
    assert_eq!(all(&left, &right), SITES);
}

/// Exchanged tables differ at the same points, with the marks exchanged.
#[test]
fn exchanged_tables() {
    let exchanged = SITES.map(|(point, left, right)| (point, right, left));
    assert_eq!(all(&tonnes(), &short_tons()), exchanged);
}

#[test]
fn equal_tables() {
    let bytes = short_tons();
    for right in [&bytes, &bytes.clone()] {
        let mut room = vec![PAINT; 4];
        let found = compare(&bytes, right, 0, &mut room).expect("accepted");
        assert_eq!((found.next, found.total, found.records), (8, 0, &[][..]));
        assert_eq!(room, [PAINT; 4]);
        assert_eq!(all(&bytes, right), []);
    }
}

/// Every pair of marks, at both points of one variable.
#[test]
fn every_pair_of_marks() {
    let marks = [Off, On, Free];
    for (left, right) in marks.iter().flat_map(|&l| marks.map(|r| (l, r))) {
        for (other, point) in [(Off, 0u16), (On, 1), (Free, 0)] {
            let table = |mark| match point {
                0 => stored(&[mark, other]),
                _ => stored(&[other, mark]),
            };
            let expected = Some((point, left, right)).filter(|_| left != right);
            let found = all(&table(left), &table(right));
            assert!(found.into_iter().eq(expected));
        }
    }
}

/// A room stops the listing before the first record that doesn't fit; what is left
/// of it is as it was.
#[test]
fn short_rooms() {
    let (left, right) = (short_tons(), tonnes());
    for (length, next) in [(0, 3), (3, 3), (4, 4), (5, 4), (7, 4), (8, 7), (11, 7)] {
        let mut room = vec![PAINT; length];
        let found = compare(&left, &right, 0, &mut room).expect("accepted");
        assert_eq!((found.next, found.total), (next, 3));
        let records = length / DIFFERENCE_LENGTH;
        let expected = SITES.into_iter().take(records);
        assert!(found.differences().map(triple).eq(expected));
        let untouched = &room[records * DIFFERENCE_LENGTH..];
        assert!(untouched.iter().all(|&byte| byte == PAINT));
    }
}

/// From every first point, whatever the room: the listing goes on to the same end.
#[test]
fn first_points() {
    let (left, right) = (short_tons(), tonnes());
    for first in 0..=8 {
        for length in [4, 5, 8, 12, 13] {
            let (mut point, mut joined) = (first, vec![]);
            while point < 8 {
                let mut room = vec![PAINT; length];
                let found = compare(&left, &right, point, &mut room).expect("accepted");
                assert_eq!(found.total, 3);
                assert!(found.next > point);
                joined.extend(found.differences().map(triple));
                point = found.next;
            }
            let ahead = SITES.into_iter();
            let expected = ahead.filter(|&(point, ..)| usize::from(point) >= first);
            assert!(joined.into_iter().eq(expected));
        }
    }
}

/// 2^n is the last first point: nothing is left to list there.
#[test]
fn ends_of_first_points() {
    let (left, right) = (short_tons(), tonnes());
    let mut room = vec![PAINT; 4];
    let end = compare(&left, &right, 8, &mut room).expect("accepted");
    assert_eq!((end.next, end.total, end.records), (8, 3, &[][..]));
    for first in [9, 65_536, usize::MAX] {
        let beyond = compare(&left, &right, first, &mut room);
        assert_eq!(beyond, Err(Refusal::FirstPoint.into()));
    }
    assert_eq!(room, [PAINT; 4]);
}

/// Every point of twelve variables differs: one call with the room that always
/// suffices, and the iterator, whose own room is shorter.
#[test]
fn largest_tables() {
    let marks = |mark: fn(usize) -> Mark| (0..MAX_POINTS).map(mark).collect::<Vec<Mark>>();
    let left = marks(|point| [Off, On, Free][point % 3]);
    let right = marks(|point| [On, Free, Off][point % 3]);
    let pairs = left.iter().zip(&right);
    let expected: Vec<(u16, Mark, Mark)> = (0..)
        .zip(pairs)
        .map(|(point, (&left, &right))| (point, left, right))
        .collect();
    let (left, right) = (stored(&left), stored(&right));
    assert_eq!(1 << MAX_VARIABLES, MAX_POINTS);
    let mut room = vec![PAINT; COMPARISON_ROOM];
    let found = compare(&left, &right, 0, &mut room).expect("accepted");
    assert_eq!((found.next, found.total), (MAX_POINTS, MAX_POINTS));
    assert!(found.differences().map(triple).eq(expected.clone()));
    let mut short = vec![PAINT; COMPARISON_ROOM - 1];
    let found = compare(&left, &right, 0, &mut short).expect("accepted");
    assert_eq!((found.next, found.total), (MAX_POINTS - 1, MAX_POINTS));
    assert_eq!(all(&left, &right), expected);
}

/// Around every number of differences that fills the iterator's room, the last
/// points differ.
#[test]
fn iterator_at_the_ends_of_its_room() {
    let right = stored(&[Off; 2048]);
    for count in [255, 256, 257, 511, 512, 513, 1024] {
        let marks: Vec<Mark> = (0..2048)
            .map(|point| if point < 2048 - count { Off } else { On })
            .collect();
        let first = 2048 - count as u16;
        let expected = (first..2048).map(|point| (point, On, Off));
        assert!(all(&stored(&marks), &right).into_iter().eq(expected));
    }
}

/// The comparison is refused so, with every other number 0 and the room as it was.
fn assert_refused(left: &[u8], right: &[u8], first: usize, refused: Refused) {
    let Refused { refusal, place } = refused;
    let mut room = vec![PAINT; 12];
    assert_eq!(compare(left, right, first, &mut room), Err(refused));
    let numbers = raw::Comparison {
        refusal: refusal.into(),
        place,
        ..raw::Comparison::default()
    };
    assert_eq!(raw::compare(left, right, first, &mut room), numbers);
    assert_eq!(room, [PAINT; 12]);
    if refusal != Refusal::FirstPoint {
        assert_eq!(differences(left, right).unwrap_err(), refused);
    }
}

/// The left table's refusal, with its place, then the right one's, then those of
/// both.
#[test]
fn refusals() {
    let good = short_tons();
    let other = stored(&[Off, On, Off, On]);
    let cut: Vec<u8> = good[..good.len() - 1].to_vec();
    let kind = vec![0x4E, 3, 0x46, 1, 0, 0x45, 1, 0];
    let variables = vec![0x4E, 13, 0x45, 0, 0];
    let point = vec![0x4E, 3, 0x4F, 8, 0, 0x45, 1, 0];
    let order = vec![0x4E, 3, 0x4F, 1, 0, 0x44, 1, 0, 0x45, 2, 0];
    let faulty = [
        (&cut, Refusal::BytesMissing, cut.len()),
        (&kind, Refusal::WrongKind, 2),
        (&variables, Refusal::Variables, 0),
        (&point, Refusal::Point, 0),
        (&order, Refusal::Order, 0),
    ];
    for (bytes, refusal, place) in faulty {
        let refused = Refused { refusal, place };
        assert_refused(bytes, &good, 0, refused);
        assert_refused(&good, bytes, 9, refused);
        assert_refused(&other, bytes, 0, refused);
        for (right, ..) in faulty {
            assert_refused(bytes, right, 9, refused);
        }
    }
    assert_refused(&good, &other, 0, Refusal::Counts.into());
    assert_refused(&other, &good, usize::MAX, Refusal::Counts.into());
    assert_refused(&good, &good, 9, Refusal::FirstPoint.into());
    assert_refused(&other, &other, 5, Refusal::FirstPoint.into());
}

#[test]
fn numbers_of_marks() {
    for (number, mark) in [(0, Off), (1, On), (2, Free)] {
        assert_eq!((u8::from(mark), Mark::try_from(number)), (number, Ok(mark)));
    }
    for number in 3..=255 {
        assert_eq!(Mark::try_from(number), Err(number));
    }
}
