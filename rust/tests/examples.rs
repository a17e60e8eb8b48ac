//! Document 01's examples through the safe calls, with the answers that it or
//! document 02, No. 4, prints; refusals of each of its numbers, after which lent memory is as it was;
//! and the layout of the numbers that calls return. Every room is as long as its
//! answer, or a little longer, so that a tool that watches memory sees each
//! access beyond. Follows document 01, section "Table of proved examples".

use glospruma::{
    affine, analyse, complete, form_points, form_rewrite, linear_space, list_primes, raw,
    read_table, report, write_form, Listing, Prime, Refusal, CANDIDATES, LISTING_ROOM,
    RECORD_LENGTH,
};
use std::mem::size_of;

const P5_ON: [u16; 10] = [4, 5, 6, 7, 9, 10, 12, 13, 14, 15];

const P5_FORM: [u8; 19] = [
    0x4E, 0x04, 0x50, 0x58, 0x01, 0x04, 0x00, 0x50, 0x58, 0x01, 0x0C, 0x00, 0x58, 0x00, 0x0B, 0x00,
    0x45, 0x02, 0x00,
];

/// The report that document 01 prints whole.
const P5_REPORT: &str = "variables 4
on 10 free 0
degree 1
canonical 3
y1 = x1
y2 = x2
y3 = x3 + x4
restriction 2 3 5 6 7
product x2=1
product x1+x2=1 x1+x3+x4=0
";

/// The bytes of a stored table of on points.
fn stored(n: u8, on: &[u16]) -> Vec<u8> {
    let mut bytes = vec![0x4E, n];
    for point in on {
        bytes.push(0x4F);
        bytes.extend(point.to_le_bytes());
    }
    bytes.push(0x45);
    bytes.extend((on.len() as u16).to_le_bytes());
    bytes
}

/// The form of a table of on points has these bytes, and these points.
fn assert_form(n: usize, on: &[u16], expected: &[u8]) {
    let mut room = vec![9; expected.len()];
    let form = write_form(n, on, &[], &mut room).expect("accepted");
    assert_eq!(form.bytes, expected);
    let mut points = vec![9; on.len()];
    let read = form_points(form.bytes, &mut points).expect("accepted");
    assert_eq!((read.variables, read.points), (n, on));
    let mut again = vec![9; expected.len()];
    let rewritten = form_rewrite(form.bytes, &mut again).expect("accepted");
    assert_eq!(rewritten.bytes, expected);
}

#[test]
fn p1_no_point() {
    let found = analyse(1, &[], &[], &mut []).expect("accepted");
    assert_eq!((found.degree, found.restriction), (1, &[][..]));
    assert_form(1, &[], &[0x4E, 1, 0x45, 0, 0]);
}

#[test]
fn p2_one_point() {
    assert_eq!(linear_space(1, &[0]).expect("accepted").degree, 0);
    assert_form(1, &[0], &[0x4E, 1, 0x50, 0x58, 0, 1, 0, 0x45, 1, 0]);
}

#[test]
fn p3_both_points() {
    let mut room = vec![9];
    let found = analyse(1, &[0, 1], &[], &mut room).expect("accepted");
    assert_eq!((found.degree, found.restriction), (1, &[0][..]));
    assert_form(1, &[0, 1], &[0x4E, 1, 0x50, 0x45, 1, 0]);
}

#[test]
fn p4_parity_of_three() {
    let on = vec![1, 2, 4, 7];
    let mut room = vec![9];
    let found = analyse(3, &on, &[], &mut room).expect("accepted");
    assert_eq!((found.degree, found.basis.as_slice()), (2, &[3, 5][..]));
    assert_eq!(found.canonical.as_slice(), [1, 2]);
    assert_eq!(found.equations.as_slice(), [7]);
    assert_eq!(found.restriction, [1]);
    assert_form(3, &on, &[0x4E, 3, 0x50, 0x58, 1, 7, 0, 0x45, 1, 0]);
}

#[test]
fn p5_four_variables() {
    let mut room = vec![9; 6];
    let found = analyse(4, &P5_ON, &[], &mut room).expect("accepted");
    assert_eq!((found.degree, found.basis.as_slice()), (1, &[3][..]));
    assert_eq!(found.canonical.as_slice(), [3]);
    assert_eq!(found.equations.as_slice(), [8, 4, 3]);
    assert_eq!(found.restriction, [2, 3, 5, 6, 7]);
    assert_eq!(room[5], 9);
    assert_form(4, &P5_ON, &P5_FORM);
}

#[test]
fn p5_stored_and_reported() {
    let bytes = stored(4, &P5_ON);
    let mut on = vec![9; 10];
    let table = read_table(&bytes, &mut on, &mut []).expect("accepted");
    assert_eq!((table.variables, table.on), (4, &P5_ON[..]));
    assert!(table.free.is_empty());
    let mut room = vec![9; P5_REPORT.len()];
    let found = report(&bytes, &mut room).expect("accepted");
    assert_eq!(found.text, P5_REPORT);
}

/// Degree, least point, basis and number of on points of each prime.
fn primes(listing: &Listing) -> Vec<(u8, u8, Vec<u8>, u8)> {
    let told = |prime: Prime| {
        let basis = prime.basis.to_vec();
        (prime.degree, prime.least, basis, prime.on_count)
    };
    listing.primes().map(told).collect()
}

#[test]
fn p6_five_primes() {
    let on = vec![2, 3, 5, 6, 7];
    let mut room = vec![9; 5 * RECORD_LENGTH + 1];
    let listing = list_primes(3, &on, &[], 0, u64::MAX, &mut room).expect("accepted");
    assert_eq!((listing.next, listing.passed), (51, 51));
    let expected = [
        (2, 2, vec![1, 4], 4),
        (1, 2, vec![7], 2),
        (1, 3, vec![6], 2),
        (1, 5, vec![2], 2),
        (1, 5, vec![3], 2),
    ];
    assert_eq!(primes(&listing), expected);
    assert_eq!(room[5 * RECORD_LENGTH], 9);
}

/// Free points are in primes, but aren't counted: one of 64 points is on, or all.
#[test]
fn counts_of_one_and_of_all() {
    let all: Vec<u16> = (0..64).collect();
    let basis = vec![1, 2, 4, 8, 16, 32];
    for (on, free, count) in [(&all[5..6], all_but(5), 1), (&all, Vec::new(), 64)] {
        let mut room = vec![9; RECORD_LENGTH];
        let listing = list_primes(6, on, &free, 0, u64::MAX, &mut room).expect("accepted");
        assert_eq!(primes(&listing), [(6, 0, basis.clone(), count)]);
    }
}

/// The points of six variables but one.
fn all_but(point: u16) -> Vec<u16> {
    (0..64).filter(|&other| other != point).collect()
}

/// Every length of room that is given again and again lists the same records.
#[test]
fn p6_in_pieces() {
    let on = vec![2, 3, 5, 6, 7];
    let mut whole = vec![9; 5 * RECORD_LENGTH];
    let records = list_primes(3, &on, &[], 0, 51, &mut whole)
        .expect("accepted")
        .records;
    let one = RECORD_LENGTH;
    let rooms = [one, one, 2 * one - 1, 3 * one - 1, 5 * one, 7 * one + 1];
    for (length, allowance) in rooms.into_iter().zip([51, 1, 7, 2, 3, 50]) {
        let (mut place, mut joined) = (0, Vec::<u8>::new());
        while place < 51 {
            let mut room = vec![9; length];
            let listing = list_primes(3, &on, &[], place, allowance, &mut room).expect("accepted");
            assert_eq!(listing.next, place + listing.passed);
            joined.extend(listing.records);
            place = listing.next;
        }
        assert_eq!(joined, records);
    }
}

/// The listing ends where the package says, and its room suffices: of no point, of
/// all points, and of one that is off.
#[test]
fn listings_end_at_the_number_of_candidates() {
    for (n, end) in (1..).zip(CANDIDATES) {
        let all: Vec<u16> = (0..1 << n).collect();
        for on in [&all[..0], &all, &all[1..]] {
            let mut room = vec![9; LISTING_ROOM];
            let listing = list_primes(n, on, &[], 0, u64::MAX, &mut room).expect("accepted");
            assert_eq!((listing.next, listing.passed), (end, end));
            let beyond = list_primes(n, on, &[], end + 1, 0, &mut room);
            assert_eq!(beyond, Err(Refusal::Place));
        }
    }
}

#[test]
fn p7_smallest_affine_space() {
    let on = vec![2, 4, 6, 11, 13];
    let mut room = vec![9; 5];
    let space = affine(4, &on, &mut room).expect("accepted");
    assert_eq!((space.least, space.dimension), (0, 3));
    assert_eq!(space.basis.as_slice(), [2, 4, 9]);
    assert_eq!(space.projection, [1, 2, 3, 5, 6]);
}

#[test]
fn p8_a_degree_above_both() {
    let mut room = vec![9; 3];
    let found = complete(2, &[0], &[1, 2], &mut room).expect("accepted");
    assert_eq!((found.degree, found.k0, found.k1), (1, 0, 0));
    assert_eq!(found.points, [0, 1]);
    assert_eq!(room[2], 9);
    let mut room = vec![9; 1];
    let found = analyse(2, &[0], &[1, 2], &mut room).expect("accepted");
    assert_eq!((found.degree, found.basis.as_slice()), (1, &[1][..]));
    assert_eq!(found.restriction, [0]);
}

/// From nine variables free points are completed in the simple way, and the
/// report's degree says so.
#[test]
fn eight_and_nine_variables() {
    for (n, degree, points) in [(8, 1, &[0, 1][..]), (9, 0, &[0])] {
        let mut room = vec![9; points.len()];
        let found = complete(n, &[0], &[1, 2], &mut room).expect("accepted");
        assert_eq!((found.degree, found.points), (degree, points));
    }
    for (n, line) in [(8, "degree 8"), (9, "degree 9 simple")] {
        let bytes = [0x4E, n, 0x44, 0, 0, 0x45, 1, 0];
        let mut room = vec![9; 200];
        let found = report(&bytes, &mut room).expect("accepted");
        assert_eq!(found.text.lines().nth(2), Some(line));
    }
}

#[test]
fn p9_the_end_of_the_listing() {
    let mut room = vec![9; 8];
    let whole = list_primes(2, &[], &[0], 0, u64::MAX, &mut room).expect("accepted");
    assert_eq!((whole.next, whole.passed), (11, 11));
    assert!(whole.records.is_empty());
    let end = list_primes(2, &[], &[0], 11, u64::MAX, &mut room).expect("accepted");
    assert_eq!((end.next, end.passed), (11, 0));
    let beyond = list_primes(2, &[], &[0], 12, 0, &mut room);
    assert_eq!(beyond, Err(Refusal::Place));
    assert_eq!(room, [9; 8]);
}

#[test]
fn refusals_of_tables() {
    let cases: [(usize, &[u16], &[u16], Refusal); 6] = [
        (0, &[], &[], Refusal::Variables),
        (13, &[1, 1], &[1], Refusal::Variables),
        (12, &[1, 1], &[4096], Refusal::Point),
        (3, &[1, 1], &[1], Refusal::Order),
        (3, &[1, 2], &[2], Refusal::Shared),
        (3, &[1, 2], &[], Refusal::Room),
    ];
    for (n, on, free, refusal) in cases {
        let mut points = vec![9; 1];
        assert_eq!(complete(n, on, free, &mut points), Err(refusal));
        let mut none = vec![];
        assert_eq!(analyse(n, on, free, &mut none).unwrap_err(), refusal);
        let mut bytes = vec![9; 4];
        assert_eq!(write_form(n, on, free, &mut bytes), Err(refusal));
        let listed = list_primes(n, on, free, 0, 9, &mut bytes);
        match refusal {
            Refusal::Room => assert_eq!(listed.expect("accepted").records, []),
            _ => assert_eq!(listed, Err(refusal)),
        }
        assert_eq!((points, bytes), (vec![9; 1], vec![9; 4]));
    }
}

#[test]
fn refusals_of_single_calls() {
    let mut points = vec![9; 4];
    assert_eq!(affine(3, &[], &mut points), Err(Refusal::Affine));
    assert_eq!(affine(3, &[1, 2], &mut points[..1]), Err(Refusal::Room));
    assert_eq!(linear_space(2, &[4]), Err(Refusal::Point));
    let mut bytes = vec![9; 30];
    let listed = list_primes(7, &[1], &[], 0, 1, &mut bytes);
    assert_eq!(listed, Err(Refusal::Size));
    assert_eq!(write_form(7, &[1], &[], &mut bytes), Err(Refusal::Size));
    let short = form_points(&P5_FORM, &mut points);
    assert_eq!(short, Err(Refusal::Room.into()));
    let short = form_rewrite(&P5_FORM, &mut bytes[..18]);
    assert_eq!(short, Err(Refusal::Room.into()));
    assert_eq!((points, bytes), (vec![9; 4], vec![9; 30]));
}

#[test]
fn refusals_of_stored_tables() {
    let bytes = [0x4E, 2, 0x4F, 0, 0, 0x44, 1, 0, 0x44, 2, 0, 0x45, 3, 0];
    let (mut on, mut free) = (vec![9; 1], vec![9; 1]);
    let short = read_table(&bytes, &mut on, &mut free);
    assert_eq!(short, Err(Refusal::Room.into()));
    let point = read_table(&[0x4E, 1, 0x4F, 2, 0, 0x45, 1, 0], &mut on, &mut free);
    assert_eq!(point, Err(Refusal::Point.into()));
    assert_eq!((on, free), (vec![9; 1], vec![9; 1]));
    let mut room = vec![9; 17];
    let refused = report(&bytes[..13], &mut room).expect("accepted");
    assert_eq!(refused.text, "refused 21 at 13\n");
    assert_eq!(report(&bytes, &mut room), Err(Refusal::Room));
    assert_eq!(room, b"refused 21 at 13\n");
}

/// 8 was the one number of all refused bytes up to version 0.3, and is unused.
#[test]
fn numbers_of_refusals() {
    let given: Vec<u8> = (1..=7).chain(9..=12).chain([17]).chain(20..=27).collect();
    assert_eq!(Refusal::ALL.map(u8::from).to_vec(), given);
    for refusal in Refusal::ALL {
        assert_eq!(Refusal::try_from(u8::from(refusal)), Ok(refusal));
    }
    for number in (0..=255).filter(|number| !given.contains(number)) {
        assert_eq!(Refusal::try_from(number), Err(number));
    }
}

/// The sizes that tests/c/examples.c asks of include/glospruma.h too.
#[test]
fn layout_of_numbers() {
    assert_eq!(size_of::<raw::ShortList>(), 32);
    assert_eq!(size_of::<raw::Basis>(), 32);
    assert_eq!(size_of::<raw::TableRead>(), 40);
    assert_eq!(size_of::<raw::Comparison>(), 40);
    assert_eq!(size_of::<raw::LinearSpace>(), 48);
    assert_eq!(size_of::<raw::Completion>(), 40);
    assert_eq!(size_of::<raw::Analysis>(), 120);
    assert_eq!(size_of::<raw::Affine>(), 56);
    assert_eq!(size_of::<raw::Listed>(), 32);
    assert_eq!(size_of::<raw::FormWritten>(), 24);
    assert_eq!(size_of::<raw::FormPoints>(), 32);
    assert_eq!(size_of::<raw::FormRewrite>(), 24);
    assert_eq!(size_of::<raw::PointRecord>(), 4);
    assert_eq!(size_of::<raw::Indexed>(), 40);
    assert_eq!(size_of::<raw::Report>(), 16);
}
