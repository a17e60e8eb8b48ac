//! The listing call compared with the reference, alone and in whole lists of
//! calls. Follows document 01, sections "Primes" and "Refusal numbers", and
//! document 02, No. 6.

use crate::lent::Lent;
use crate::lent_calls;
use crate::lists;
use crate::tables;
use crate::tally::{assert_counts, Tally};
use glospruma::{MAX_POINTS, MAX_VARIABLES};
use library::settings::{is_whole, some};
use library::Listed;
use reference::calls;
use reference::generate::{self, Generator};
use reference::numbers::ListingNumbers;
use reference::primes::{self, CUBE_LENGTH, RECORD_LENGTH};
use reference::table::Table;

/// Numbers of candidates for n from 1 to 6, as document 01 prints them.
pub const ENDS: [u64; 6] = [3, 11, 51, 307, 2_451, 26_387];

/// On points of P6, whose first prime is 2 (1, 4).
const P6_ON: [u16; 5] = [2, 3, 5, 6, 7];

/// The numbers of the call in the reference's words.
pub fn numbers(found: &Listed) -> ListingNumbers {
    ListingNumbers {
        refusal: found.refusal,
        next_place: found.next as usize,
        passed: found.passed as usize,
        records: found.records,
    }
}

/// Numbers of an accepted listing.
fn listed(next: u64, passed: u64, records: usize) -> Listed {
    Listed {
        refusal: 0,
        next,
        passed,
        records,
    }
}

/// Numbers of a refused one.
fn refused(refusal: u8) -> Listed {
    Listed {
        refusal,
        ..Default::default()
    }
}

/// A table and the memory that lends its lists.
struct LentTable {
    n: usize,
    on: Lent<u16>,
    free: Lent<u16>,
}

impl LentTable {
    fn new(n: usize, on: &[u16], free: &[u16]) -> LentTable {
        LentTable {
            n,
            on: Lent::holding(on),
            free: Lent::holding(free),
        }
    }

    /// Makes the call with a room of so many bytes. The records returned must
    /// stand at its front, and all other memory be as lent, which the caller
    /// completes by comparing numbers and records.
    fn call(
        &self,
        tally: &mut Tally,
        (place, allowance, length): (u64, u64, usize),
    ) -> (Listed, Vec<u8>) {
        let mut room = Lent::room(length);
        let (on, free) = (self.on.part(), self.free.part());
        let found = library::list_primes(self.n, on, free, place, allowance, room.part_mut());
        let used = RECORD_LENGTH * found.records;
        assert!(used <= length, "{found:?} in a room of {length}");
        let records = room.part()[..used].to_vec();
        room.assert_front(&records);
        self.on.assert_as_lent();
        self.free.assert_as_lent();
        tally.add(found.refusal);
        (found, records)
    }
}

/// Makes the call and the reference's and compares numbers and memory.
fn compare(tally: &mut Tally, table: &LentTable, call: (u64, u64, usize)) -> ListingNumbers {
    let (place, allowance, length) = call;
    let mut room = vec![0; length];
    let (on, free) = (table.on.part(), table.free.part());
    let (first, most) = (place as usize, allowance as usize);
    let expected = calls::list_primes(table.n, on, free, first, most, &mut room);
    let (found, records) = table.call(tally, call);
    let context = || format!("n {}, on {on:?}, free {free:?}, {call:?}", table.n);
    assert_eq!(numbers(&found), expected, "{}", context());
    assert_eq!(records, room[..records.len()], "{}", context());
    expected
}

/// A table with all its primes, found by the reference.
struct Primes {
    lent: LentTable,
    end: u64,
    /// Places of the primes among the candidates.
    places: Vec<u64>,
    /// Their records, joined.
    records: Vec<u8>,
}

impl Primes {
    fn of((n, on, free): &Table) -> Primes {
        let sets = (primes::set_of(on), primes::set_of(free));
        let candidates = primes::candidates(*n);
        let (mut places, mut records) = (Vec::new(), Vec::new());
        for (place, cube) in candidates.iter().enumerate() {
            if primes::is_prime(*n, sets.0, sets.1, cube) {
                places.push(place as u64);
                records.extend(primes::record(sets.0, cube));
            }
        }
        Primes {
            lent: LentTable::new(*n, on, free),
            end: candidates.len() as u64,
            places,
            records,
        }
    }

    /// How many primes stand before a place.
    fn before(&self, place: u64) -> usize {
        self.places.partition_point(|&prime| prime < place)
    }

    /// The numbers and the records of a call at a place up to the end, by the
    /// listing rule.
    fn answer(&self, (place, allowance, length): (u64, u64, usize)) -> (Listed, Vec<u8>) {
        let first = self.before(place);
        let mut next = place + allowance.min(self.end - place);
        let mut behind = self.before(next);
        let most = first + length / RECORD_LENGTH;
        if behind > most {
            next = self.places[most];
            behind = most;
        }
        let records = self.records[RECORD_LENGTH * first..RECORD_LENGTH * behind].to_vec();
        (listed(next, next - place, behind - first), records)
    }

    /// Makes a call and compares its numbers and records.
    fn check(&self, tally: &mut Tally, call: (u64, u64, usize)) -> (Listed, Vec<u8>) {
        let found = self.lent.call(tally, call);
        let (n, on, free) = (self.lent.n, self.lent.on.part(), self.lent.free.part());
        let context = || format!("n {n}, on {on:?}, free {free:?}, {call:?}");
        assert_eq!(found, self.answer(call), "{}", context());
        found
    }

    /// The whole listing in one call, with rooms of exactly the records, longer
    /// and shorter by some bytes, and of less than one record.
    fn check_whole(&self, tally: &mut Tally) {
        let exact = self.records.len();
        let mut lengths = vec![0, 1, RECORD_LENGTH - 1, RECORD_LENGTH];
        let shorter = [RECORD_LENGTH, 1].map(|bytes| exact.saturating_sub(bytes));
        lengths.extend(shorter);
        lengths.extend([0, 1, RECORD_LENGTH - 1, RECORD_LENGTH, 500].map(|bytes| exact + bytes));
        lengths.sort_unstable();
        lengths.dedup();
        for length in lengths {
            let (found, _) = self.check(tally, (0, u64::MAX, length));
            let at_end = found.next == self.end;
            assert_eq!(at_end, length / RECORD_LENGTH >= self.places.len());
        }
    }

    /// A list of calls from place 0 to the end and a few more there, refused
    /// calls mixed in: the records handed over are always those of the primes
    /// behind the place, the passed counts add up to it, and every call that can
    /// move on does.
    fn check_list(&self, tally: &mut Tally, generator: &mut Generator) -> Counts {
        let (mut place, mut passed, mut joined) = (0, 0, Vec::new());
        let mut counts = Counts::default();
        let mut calls_at_end = 0;
        let mut refused = 0;
        while calls_at_end < 3 || refused < REFUSALS.len() {
            counts.calls += 1;
            if calls_at_end == 3 || generator.chance(30) {
                self.check_refused(tally, generator, REFUSALS[refused % REFUSALS.len()]);
                refused += 1;
                continue;
            }
            calls_at_end += usize::from(place == self.end);
            let allowance = random_allowance(generator, self.end);
            let length = random_length(generator, self.records.len());
            let (found, records) = self.check(tally, (place, allowance, length));
            if place < self.end && allowance > 0 && length >= RECORD_LENGTH {
                assert!(found.next > place, "no step from {place}");
            }
            assert!(found.passed <= allowance);
            counts.accepted += 1;
            counts.short_rooms += usize::from(found.passed < allowance && found.next < self.end);
            place = found.next;
            passed += found.passed;
            joined.extend(records);
            assert_eq!(passed, place);
            assert_eq!(joined.len(), RECORD_LENGTH * self.before(place));
        }
        assert_eq!(place, self.end);
        assert_eq!(joined, self.records);
        counts
    }

    /// A call on this table or a spoilt one that is refused.
    fn check_refused(&self, tally: &mut Tally, generator: &mut Generator, refusal: u8) {
        let (on, free) = (self.lent.on.part(), self.lent.free.part());
        let (n, on, free) = spoilt(generator, (self.lent.n, on, free), refusal);
        let place = if refusal == 9 {
            let beyond = [1, 2, 1 << 8, 1 << 16, 1 << 32, u64::MAX - self.end];
            self.end + beyond[generator.below(beyond.len())]
        } else {
            let places = [0, self.end, self.end + 1, u64::MAX];
            places[generator.below(places.len())]
        };
        let allowance = random_allowance(generator, self.end);
        let length = random_length(generator, self.records.len());
        let table = LentTable::new(n, &on, &free);
        let expected = compare(tally, &table, (place, allowance, length));
        assert_eq!(expected.refusal, refusal, "n {n}, on {on:?}, free {free:?}");
    }
}

/// The refusals of a listing.
const REFUSALS: [u8; 6] = [1, 2, 3, 4, 5, 9];

/// A table with the fault of a refusal, or as it is for 9.
fn spoilt(generator: &mut Generator, (n, on, free): (usize, &[u16], &[u16]), fault: u8) -> Table {
    let (mut on, mut free) = (on.to_vec(), free.to_vec());
    let on_list = generator.chance(50);
    let list = if on_list { &mut on } else { &mut free };
    match fault {
        1 => {
            let refused = [0, MAX_VARIABLES + 1, 256 + n, usize::MAX];
            return (refused[generator.below(refused.len())], on, free);
        }
        2 => list.push([1 << n, MAX_POINTS as u16, 65_535][generator.below(3)]),
        3 => list.push(list.last().copied().unwrap_or(0)),
        _ => {}
    }
    if fault == 3 && list.len() == 1 {
        list.push(0);
    }
    if fault == 4 {
        on.extend(on.is_empty().then_some(0));
        free = vec![on[generator.below(on.len())]];
    }
    let wider = 7 + generator.below(MAX_VARIABLES - 6);
    (if fault == 5 { wider } else { n }, on, free)
}

/// An allowance of none, one, few, any part of the candidates, or all.
fn random_allowance(generator: &mut Generator, end: u64) -> u64 {
    match generator.below(7) {
        0 => 0,
        1 => 1,
        2 => 2 + generator.below(8) as u64,
        3 | 4 => generator.below(end as usize + 2) as u64,
        5 => u64::MAX - generator.below(3) as u64,
        _ => u64::MAX,
    }
}

/// A room of less than a record, one record, or any part of all records.
fn random_length(generator: &mut Generator, all: usize) -> usize {
    match generator.below(5) {
        0 => generator.below(RECORD_LENGTH),
        1 => RECORD_LENGTH,
        2 => RECORD_LENGTH + generator.below(40),
        _ => generator.below(all + 20),
    }
}

/// Calls of lists: all, those accepted, and those that stopped for want of room.
#[derive(Default)]
struct Counts {
    calls: usize,
    accepted: usize,
    short_rooms: usize,
}

/// Whole listings and lists of calls on each table; at least so many of the
/// tables have a prime.
fn check_tables(
    title: &'static str,
    seed: u64,
    lists_each: usize,
    fewest_with_prime: usize,
    tables: impl Iterator<Item = Table>,
) {
    let mut tally = Tally::new(title);
    let mut generator = Generator::new(seed);
    let (mut count, mut with_prime, mut most_primes) = (0, 0, 0);
    let mut sum = Counts::default();
    for table in tables {
        let primes = Primes::of(&table);
        primes.check_whole(&mut tally);
        for _ in 0..lists_each {
            let counts = primes.check_list(&mut tally, &mut generator);
            sum.calls += counts.calls;
            sum.accepted += counts.accepted;
            sum.short_rooms += counts.short_rooms;
        }
        count += 1;
        with_prime += usize::from(!primes.places.is_empty());
        most_primes = most_primes.max(primes.places.len());
    }
    println!(
        "{title}: {count} tables, {with_prime} with a prime, at most {most_primes} primes; {} calls \
         in lists, {} accepted, {} of them stopped by the room",
        sum.calls, sum.accepted, sum.short_rooms
    );
    assert_counts("tables with a prime", &[with_prime], fewest_with_prime);
    tally.finish(&[0, 1, 2, 3, 4, 5, 9]);
}

#[test]
fn every_table_of_one_and_two_variables() {
    let title = "list primes, every table of one and two variables";
    let tables = (1..=2).flat_map(tables::every_table);
    check_tables(title, 160, 2, 9 + 81 - 4 - 16, tables);
}

#[test]
fn every_table_of_three_variables() {
    let title = "list primes, every table of three variables";
    let tables = tables::every_table(3);
    check_tables(title, 168, 2, 6561 - 256, tables);
}

/// Every place, allowance and room on every table of one and two variables; all
/// beyond the end is refused.
#[test]
fn every_call_of_one_and_two_variables() {
    let mut tally = Tally::new("list primes, every call of one and two variables");
    for (n, on, free) in (1..=2).flat_map(tables::every_table) {
        let table = LentTable::new(n, &on, &free);
        let primes = Primes::of(&(n, on, free));
        let end = ENDS[n - 1];
        for place in 0..=end + 1 {
            for allowance in (0..=end - place.min(end) + 1).chain([u64::MAX]) {
                for length in 0..=primes.records.len() + 1 {
                    compare(&mut tally, &table, (place, allowance, length));
                }
            }
        }
    }
    tally.finish(&[0, 9]);
}

/// Random and known tables of n variables.
fn tables_of(n: usize, seed: u64) -> impl Iterator<Item = Table> {
    tables::known_tables_of(n..=n).chain(tables::random_tables_of(n..=n, seed))
}

/// So many tables are passed over, for the time that they would take; none of a
/// share of them.
fn passed_over(tables: usize) -> usize {
    match is_whole() {
        true => tables,
        false => 0,
    }
}

#[test]
fn tables_of_four_variables() {
    let title = "list primes, four variables";
    let tables = tables_of(4, 162);
    check_tables(title, 161, 2, 230, tables);
}

#[test]
fn tables_of_five_variables() {
    let title = "list primes, five variables";
    let tables = tables_of(5, 164).skip(passed_over(59));
    check_tables(title, 163, 1, 200, tables);
}

#[test]
fn tables_of_six_variables() {
    let title = "list primes, six variables";
    let tables = tables_of(6, 165).skip(passed_over(62)).step_by(5);
    check_tables(title, 166, 1, 40, tables);
}

/// The points of a candidate, all on, have that candidate as their only prime,
/// which shows the order of the candidates: every one up to five variables, and
/// some of six.
#[test]
fn candidates_as_their_own_primes() {
    let mut tally = Tally::new("list primes, candidates as their own primes");
    for n in 1..=6 {
        let candidates = primes::candidates(n);
        assert_eq!(candidates.len() as u64, ENDS[n - 1]);
        let by = if n == 6 { 23 } else { 1 };
        for (place, cube) in some(candidates.iter().enumerate().step_by(by)) {
            let table = LentTable::new(n, &primes::points_of(cube.members), &[]);
            let (at, end) = (place as u64, ENDS[n - 1]);
            let record = primes::record(cube.members, cube).to_vec();
            assert_eq!(usize::from(record[CUBE_LENGTH]), 1 << cube.basis.len());
            let whole = table.call(&mut tally, (0, u64::MAX, RECORD_LENGTH));
            assert_eq!(whole, (listed(end, end, 1), record.clone()));
            let before = table.call(&mut tally, (0, u64::MAX, RECORD_LENGTH - 1));
            assert_eq!(before, (listed(at, at, 0), vec![]));
            let alone = table.call(&mut tally, (at, 1, RECORD_LENGTH + 1));
            assert_eq!(alone, (listed(at + 1, 1, 1), record));
            let after = table.call(&mut tally, (at + 1, u64::MAX, RECORD_LENGTH + 1));
            assert_eq!(after, (listed(end, end - at - 1, 0), vec![]));
        }
    }
    tally.finish(&[0]);
}

/// Free points alone have no prime, so that no room is needed.
#[test]
fn free_points_alone() {
    let mut tally = Tally::new("list primes, free points alone");
    let mut generator = Generator::new(167);
    for n in 1..=6 {
        let end = ENDS[n - 1];
        for free_percent in [50, 100, 0, 10, 30, 70, 90] {
            let (_, on, free) = generate::random_table(&mut generator, n, 0, free_percent);
            let table = LentTable::new(n, &on, &free);
            for length in [0, RECORD_LENGTH - 1, RECORD_LENGTH, 100].into_iter() {
                let found = table.call(&mut tally, (0, u64::MAX, length));
                assert_eq!(found, (listed(end, end, 0), vec![]));
            }
        }
    }
    tally.finish(&[0]);
}

/// At the end nothing is passed; one place further, and at the largest numbers,
/// the call is refused whatever the allowance and the room.
#[test]
fn the_end_and_beyond() {
    let mut tally = Tally::new("list primes, the end and beyond");
    for n in 1..=6 {
        let end = ENDS[n - 1];
        let everywhere: Vec<u16> = (0..1 << n).collect();
        for on in [&[], &everywhere[..1], &everywhere] {
            let table = LentTable::new(n, on, &[]);
            for allowance in [u64::MAX, 0, 1].into_iter() {
                for length in [0, RECORD_LENGTH, 2 * RECORD_LENGTH].into_iter() {
                    let mut call = |place| table.call(&mut tally, (place, allowance, length));
                    assert_eq!(call(end), (listed(end, 0, 0), vec![]));
                    let beyond = [end + 1, end + (1 << 32), u64::MAX - 1, u64::MAX];
                    for place in beyond {
                        assert_eq!(call(place), (refused(9), vec![]));
                    }
                }
            }
        }
    }
    tally.finish(&[0, 9]);
}

#[test]
fn faulty_lists() {
    let mut tally = Tally::new("list primes, faulty lists");
    for (n, on, free) in lists::pairs() {
        let table = LentTable::new(n, &on, &free);
        let end = ENDS[n.clamp(1, 6) - 1];
        for call in [
            (0, 3, 3 * RECORD_LENGTH),
            (end.min(11), 1, RECORD_LENGTH),
            (end + 1, 0, RECORD_LENGTH - 1),
            (u64::MAX, 9, 0),
        ] {
            compare(&mut tally, &table, call);
        }
    }
    for (n, on, free, refusal) in lists::ORDERED {
        let table = LentTable::new(n, on, free);
        for place in [0, 26_388, u64::MAX] {
            let found = table.call(&mut tally, (place, 1, 3 * RECORD_LENGTH));
            assert_eq!(found, (refused(refusal), vec![]));
        }
    }
    tally.finish(&[0, 1, 2, 3, 4, 5, 9]);
}

/// The refusals of a table come before 5, and 5 before 9.
#[test]
fn order_of_refusals() {
    let cases: [lists::Case; 10] = [
        (0, &[], &[], 1),
        (MAX_VARIABLES + 1, &[1], &[1], 1),
        (7, &[128], &[], 2),
        (7, &[1, 1], &[128], 2),
        (7, &[1, 1], &[1], 3),
        (7, &[1], &[1], 4),
        (7, &[1], &[2], 5),
        (7, &[], &[], 5),
        (12, &[4095], &[0], 5),
        (6, &[1], &[2], 9),
    ];
    for (n, on, free, refusal) in cases {
        for place in [26_388, u64::MAX] {
            for allowance in [0, 1, u64::MAX] {
                let mut room = [7; 64];
                let found = lent_calls::list_primes(n, on, free, place, allowance, &mut room);
                assert_eq!(found, refused(refusal), "n {n}, on {on:?}, free {free:?}");
                assert_eq!(room, [7; 64]);
            }
        }
    }
}

/// The bytes of a record with this degree, least point, basis and count.
fn record(degree: u8, least: u8, basis: &[u8], count: u8) -> Vec<u8> {
    let mut bytes = vec![0; RECORD_LENGTH];
    bytes[..2].copy_from_slice(&[degree, least]);
    bytes[2..2 + basis.len()].copy_from_slice(basis);
    bytes[CUBE_LENGTH] = count;
    bytes
}

/// Makes a call with all candidates allowed and a room of so many bytes, which must
/// be as lent behind the records: its numbers, and the records.
fn list_all(
    (n, on, free): (usize, &[u16], &[u16]),
    place: u64,
    length: usize,
) -> (Listed, Vec<u8>) {
    let mut room = vec![7; length];
    let found = lent_calls::list_primes(n, on, free, place, u64::MAX, &mut room);
    let behind = room.split_off(RECORD_LENGTH * found.records);
    assert!(behind.iter().all(|&byte| byte == 7));
    (found, room)
}

/// P6 has five primes; a full room goes on to the end behind the last of them,
/// and one byte less stops before it.
#[test]
fn rooms_around_all_records() {
    let p6: (usize, &[u16], &[u16]) = (3, &P6_ON, &[]);
    let list = |place, length| list_all(p6, place, length).0;
    let is_first = |cube: &primes::Pseudocube| cube.least == 2 && cube.basis == [1, 4];
    let is_last = |cube: &primes::Pseudocube| cube.least == 5 && cube.basis == [3];
    let candidates = primes::candidates(3);
    let first = candidates.iter().position(is_first).expect("a candidate") as u64;
    let last = candidates.iter().position(is_last).expect("a candidate") as u64;
    for length in 0..RECORD_LENGTH {
        assert_eq!(list(0, length), listed(first, first, 0));
        assert_eq!(list(first, length), listed(first, 0, 0));
    }
    let five = 5 * RECORD_LENGTH;
    assert_eq!(list(0, five), listed(51, 51, 5));
    assert_eq!(list(0, five - 1), listed(last, last, 4));
    assert_eq!(list(last, RECORD_LENGTH - 1), listed(last, 0, 0));
    let found = list_all(p6, last, RECORD_LENGTH);
    assert_eq!(found, (listed(51, 51 - last, 1), record(1, 5, &[3], 2)));
    assert_eq!(list(last + 1, 0), listed(51, 50 - last, 0));
    assert_eq!(list(51, five), listed(51, 0, 0));
    let with_allowance = |place, allowance| {
        lent_calls::list_primes(3, &P6_ON, &[], place, allowance, &mut vec![7; five])
    };
    assert_eq!(with_allowance(0, 51), listed(51, 51, 5));
    assert_eq!(with_allowance(0, 50), listed(50, 50, 5));
    assert_eq!(with_allowance(20, 0), listed(20, 0, 0));
    assert_eq!(with_allowance(52, 0), refused(9));
}

/// Rooms of a byte less than a record, of one and of two, and each a byte less or
/// more (document 02, No. 6): a listing stops where fewer bytes than a record are
/// left for a prime, and bytes left over change nothing.
#[test]
fn rooms_around_a_record() {
    let p6: (usize, &[u16], &[u16]) = (3, &P6_ON, &[]);
    let (_, all) = list_all(p6, 0, 5 * RECORD_LENGTH);
    let stops: Vec<Listed> = (0..3)
        .map(|room| list_all(p6, 0, room * RECORD_LENGTH).0)
        .collect();
    assert_eq!(
        stops
            .iter()
            .map(|found| found.records)
            .collect::<Vec<usize>>(),
        [0, 1, 2]
    );
    for length in 0..3 * RECORD_LENGTH {
        let expected = stops[length / RECORD_LENGTH];
        let records = all[..RECORD_LENGTH * expected.records].to_vec();
        assert_eq!(
            list_all(p6, 0, length),
            (expected, records),
            "{length} bytes"
        );
    }
}

/// The table as given is listed, with its free points, and not a completed
/// function; free points don't count.
#[test]
fn the_table_as_given() {
    let found = list_all((2, &[0], &[1, 2]), 0, 2 * RECORD_LENGTH);
    let records = [record(1, 0, &[1], 1), record(1, 0, &[2], 1)].concat();
    assert_eq!(found, (listed(11, 11, 2), records));
}

/// The smallest and the largest count: of a table that is free but for one on point,
/// which is the whole space with that point, and of one that is on everywhere.
#[test]
fn counts_of_whole_spaces() {
    for n in 1..=6 {
        let (end, size) = (ENDS[n - 1], 1u16 << n);
        let basis: Vec<u8> = (0..n).map(|place| 1 << place).collect();
        let everywhere: Vec<u16> = (0..size).collect();
        let whole = |count| (listed(end, end, 1), record(n as u8, 0, &basis, count));
        assert_eq!(
            list_all((n, &everywhere, &[]), 0, RECORD_LENGTH),
            whole(size as u8)
        );
        for on in 0..size {
            let free: Vec<u16> = (0..size).filter(|&point| point != on).collect();
            assert_eq!(list_all((n, &[on], &free), 0, RECORD_LENGTH), whole(1));
        }
    }
}

/// With room for as many records, of eight bytes before and of nine now and whatever
/// bytes are left over, a call goes as far as document 01's rule and writes its
/// bytes first. The rule before is followed here step by step.
#[test]
fn as_before_but_for_the_count() {
    let mut generator = Generator::new(169);
    let mut tally = Tally::new("list primes, as before but for the count");
    for (n, on, free) in some(tables::random_tables_of(1..=5, 170)) {
        let sets = (primes::set_of(&on), primes::set_of(&free));
        let lent = LentTable::new(n, &on, &free);
        let candidates = primes::candidates(n);
        let place = generator.below(candidates.len() + 1);
        let allowance = generator.below(candidates.len() + 2);
        let before = generator.below(12 * CUBE_LENGTH);
        let length = before / CUBE_LENGTH * RECORD_LENGTH + generator.below(RECORD_LENGTH);
        let (mut next, mut left, mut bytes) = (place, before, Vec::new());
        for cube in candidates.iter().skip(place).take(allowance) {
            if primes::is_prime(n, sets.0, sets.1, cube) {
                if left < CUBE_LENGTH {
                    break;
                }
                left -= CUBE_LENGTH;
                bytes.extend_from_slice(&primes::record(sets.0, cube)[..CUBE_LENGTH]);
            }
            next += 1;
        }
        let call = (place as u64, allowance as u64, length);
        let (found, records) = lent.call(&mut tally, call);
        let count = bytes.len() / CUBE_LENGTH;
        assert_eq!(found, listed(next as u64, (next - place) as u64, count));
        let cubes = records
            .chunks_exact(RECORD_LENGTH)
            .flat_map(|record| &record[..CUBE_LENGTH]);
        assert_eq!(cubes.copied().collect::<Vec<u8>>(), bytes);
    }
    tally.finish(&[0]);
}
