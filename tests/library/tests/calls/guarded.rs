//! Every call on the same input twice: with every lent slice right before a page
//! that may not be touched, and with every one right behind such a page, for
//! tables and bytes, good and faulty, and rooms of every kind. The other tests
//! have one of the two for each slice. Numbers and rooms must be the same; the
//! other tests compare them with the reference. Follows document 01, section
//! "Refusal numbers", and document 02, No. 1, No. 3, No. 4 and No. 5.

use crate::forms;
use crate::lent::{room_lengths, Entry, Guard, Lent};
use crate::lent_calls;
use crate::lists;
use crate::stored;
use crate::tables;
use crate::tally::assert_counts;
use glospruma::{PointRecord, WRITTEN_ROOM};
use glospruma::{COMPARISON_ROOM, DIFFERENCE_LENGTH, FORM_ROOM, MAX_POINTS, REPORT_ROOM};
use reference::generate::Generator;
use reference::table::Table;
use std::fmt::Debug;

const SIDES: [Guard; 2] = [Guard::Behind, Guard::Before];

/// What a room holds after a call; memory beside it must be as lent.
fn contents_of<E: Entry>(room: &Lent<E>) -> Vec<E> {
    let contents = room.part().to_vec();
    room.assert_front(&contents);
    contents
}

/// Makes a call with room of so many entries at either side, and compares; `call`
/// is given the side, so that it lends its lists there too.
fn in_room<E: Entry, N: PartialEq + Debug>(
    length: usize,
    call: &mut impl FnMut(usize, &mut [E]) -> N,
) {
    let [behind, before] = [0, 1].map(|side| {
        let mut room = Lent::room_at(SIDES[side], length);
        let numbers = call(side, room.part_mut());
        (numbers, contents_of(&room))
    });
    assert_eq!(behind, before);
}

/// Makes a call with room of each length to try for an answer of so many entries.
fn in_rooms<E: Entry, N: PartialEq + Debug>(
    answer: usize,
    mut call: impl FnMut(usize, &mut [E]) -> N,
) {
    for length in room_lengths(answer) {
        in_room(length, &mut call);
    }
}

/// Listing calls: at the start, inside, at the end and beyond it; with nothing,
/// something and everything allowed.
const LISTINGS: [(u64, u64); 8] = [
    (0, 0),
    (0, u64::MAX),
    (3, 1),
    (10, 500),
    (51, u64::MAX),
    (2451, 30_000),
    (26_387, 1),
    (u64::MAX, u64::MAX),
];

/// Every call that takes a table.
fn table_calls((n, on, free): &Table) {
    let n = *n;
    let lent = SIDES.map(|guard| [on, free].map(|list| Lent::holding_at(guard, list)));
    let on = |side: usize| lent[side][0].part();
    let free = |side: usize| lent[side][1].part();
    assert_eq!(
        library::linear_space(n, on(0)),
        library::linear_space(n, on(1))
    );
    let (mut points, mut bytes) = ([0; MAX_POINTS], [0; WRITTEN_ROOM]);
    let count = lent_calls::complete(n, on(0), free(0), &mut points).count;
    in_rooms(count, |side, room| {
        library::complete(n, on(side), free(side), room)
    });
    let count = lent_calls::analyse(n, on(0), free(0), &mut points).count;
    in_rooms(count, |side, room| {
        library::analyse(n, on(side), free(side), room)
    });
    let count = lent_calls::affine(n, on(0), &mut points).count;
    in_rooms(count, |side, room| library::affine(n, on(side), room));
    let length = lent_calls::write_form(n, on(0), free(0), &mut bytes).length;
    in_rooms(length, |side, room| {
        library::write_form(n, on(side), free(side), room)
    });
    for (place, allowance) in LISTINGS {
        for length in [0, 7, 8, 9, 40, 8192] {
            in_room(length, &mut |side, room| {
                library::list_primes(n, on(side), free(side), place, allowance, room)
            });
        }
    }
}

/// The call that takes two stored tables: bytes beside a table without points, on
/// either side, and beside themselves.
fn comparing_calls(bytes: &[u8]) {
    let empty = stored::empty_beside(bytes);
    let lent = SIDES.map(|guard| [bytes, &empty].map(|list| Lent::holding_at(guard, list)));
    let mut records = vec![0; COMPARISON_ROOM];
    for (left, right) in [(0, 1), (1, 0), (0, 0)] {
        let left = |side: usize| lent[side][left].part();
        let right = |side: usize| lent[side][right].part();
        for first in [0, 5, usize::MAX] {
            let count = lent_calls::compare(left(0), right(0), first, &mut records).records;
            in_rooms(DIFFERENCE_LENGTH * count, |side, room| {
                library::compare(left(side), right(side), first, room)
            });
        }
    }
}

/// The calls that take a form and a list of records: the index is built in lists of
/// each length to try, and changed in rooms of each length to try for the new form; in
/// a list that is too short, one room does.
fn index_calls(bytes: &[u8]) {
    let product = [0x50, 0x58, 1, 1, 0];
    let lent = SIDES.map(|guard| [bytes, &product].map(|list| Lent::holding_at(guard, list)));
    let form = |side: usize| lent[side][0].part();
    let mut records = vec![PointRecord::default(); MAX_POINTS];
    let found = lent_calls::index_build(bytes, &mut records);
    let count = match found.refusal {
        0 => 1 << found.variables,
        _ => 0,
    };
    in_rooms(count, |side, list| library::index_build(form(side), list));
    let append = |length: usize, side: usize, room: &mut [u8]| {
        let mut list = Lent::room_of_at(SIDES[side], &records[..length]);
        let product = lent[side][1].part();
        let found = library::index_append(form(side), product, list.part_mut(), room);
        (found, contents_of(&list))
    };
    let remove = |length: usize, side: usize, room: &mut [u8]| {
        let mut list = Lent::room_of_at(SIDES[side], &records[..length]);
        let found = library::index_remove(form(side), list.part_mut(), room);
        (found, contents_of(&list))
    };
    let removed = lent_calls::index_remove(bytes, &mut records.clone(), &mut [0; FORM_ROOM]);
    let (short, exact) = (count.saturating_sub(1), count);
    in_room(FORM_ROOM, &mut |side, room| append(short, side, room));
    in_room(FORM_ROOM, &mut |side, room| remove(short, side, room));
    let appended = found.length + product.len();
    in_rooms(appended, |side, room| append(exact, side, room));
    in_rooms(removed.length, |side, room| remove(exact, side, room));
}

/// Every call that takes bytes.
fn byte_calls(bytes: &[u8]) {
    let lent = SIDES.map(|guard| Lent::holding_at(guard, bytes));
    let bytes = |side: usize| lent[side].part();
    let (mut points, mut others) = ([0; MAX_POINTS], [0; MAX_POINTS]);
    let mut text = vec![0; REPORT_ROOM];
    let count = lent_calls::form_points(bytes(0), &mut points).count;
    in_rooms(count, |side, room| library::form_points(bytes(side), room));
    let length = lent_calls::form_rewrite(bytes(0), &mut text).length;
    in_rooms(length, |side, room| {
        library::form_rewrite(bytes(side), room)
    });
    let length = lent_calls::report(bytes(0), &mut text).length;
    in_rooms(length, |side, room| library::report(bytes(side), room));
    let read = lent_calls::read_table(bytes(0), &mut points, &mut others);
    for free_length in room_lengths(read.free_count) {
        in_rooms(read.on_count, |side, room| {
            let mut free = Lent::room_at(SIDES[side], free_length);
            let found = library::read_table(bytes(side), room, free.part_mut());
            (found, contents_of(&free))
        });
    }
    comparing_calls(bytes(0));
    index_calls(bytes(0));
}

/// Good tables of every size and kind, and faulty lists: some hundred.
pub fn some_tables() -> impl Iterator<Item = Table> {
    let small = tables::small_tables().step_by(97);
    let random = tables::random_tables(190).step_by(23);
    let known = tables::known_tables().step_by(17);
    let kept = tables::kept_tables(191, 1, 7).step_by(3);
    let closure = tables::closure_tables(197).step_by(11);
    let faulty = lists::pairs().step_by(83);
    let good = small.chain(random).chain(known).chain(kept);
    good.chain(closure).chain(faulty)
}

/// Stored tables and forms, whole and damaged: some hundred of each.
pub fn some_bytes() -> impl Iterator<Item = Vec<u8>> {
    let mut generator = Generator::new(192);
    let short = stored::short_tables(&mut generator).into_iter();
    let damaged = short.flat_map(|bytes| stored::every_damage(&bytes));
    let random = tables::random_tables(193).map(|table| stored::bytes_of(&table));
    let tables = damaged.step_by(101).chain(random.step_by(53));
    let longest = stored::longest().into_iter().chain(stored::faulty_points());
    let forms = forms::random_forms(194).step_by(29);
    let faulty = forms::broken_forms(195).chain(forms::damaged_forms(196));
    let bounds = forms::bounds().into_iter().step_by(7);
    let all = tables.chain(longest.step_by(5)).chain(forms);
    all.chain(faulty.step_by(301)).chain(bounds)
}

/// Makes the calls, and prints on how many inputs.
fn on_each<I>(title: &str, inputs: impl Iterator<Item = I>, calls: impl Fn(&I)) {
    let count = inputs.map(|input| calls(&input)).count();
    println!("{title} beside guard pages on either side: {count}");
    assert_counts(title, &[count], 500);
}

#[test]
fn tables_on_either_side() {
    on_each("tables", some_tables(), table_calls);
}

#[test]
fn bytes_on_either_side() {
    on_each("stored tables and forms", some_bytes(), |bytes| {
        byte_calls(bytes)
    });
}
