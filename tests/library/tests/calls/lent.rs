//! Memory lent to a call: on one side it touches a page that may not be touched,
//! on the other a pattern stands beside it. A list may only be read; a room is
//! filled with a pattern, or with what the call is to change, and compared after the
//! call: as lent after a refusal, and as lent beyond the answer after acceptance.
//! Follows document 01, section "Refusal numbers".

use crate::pages::Pages;
use library::PointRecord;
use reference::generate::Generator;
use std::cell::RefCell;
use std::fmt::Debug;
use std::fs;
use std::hint::black_box;
use std::mem::size_of;
use std::slice;
use std::sync::OnceLock;

/// Entries of the pattern beside the lent part.
const BESIDE: usize = 32;

/// Entries of the pattern in all; a room is shorter.
const PATTERN: usize = 1 << 17;

/// What lent memory consists of.
pub trait Entry: Copy + Debug + PartialEq + 'static {
    /// Random entries, always the same.
    fn pattern() -> &'static [Self];
}

/// Entries made from random numbers.
fn pattern_of<T>(entry: fn(u64) -> T) -> Vec<T> {
    let mut generator = Generator::new(0);
    let numbers = (0..PATTERN).map(|_| generator.next_number());
    numbers.map(entry).collect()
}

impl Entry for u8 {
    fn pattern() -> &'static [u8] {
        static BYTES: OnceLock<Vec<u8>> = OnceLock::new();
        BYTES.get_or_init(|| pattern_of(|number| number as u8))
    }
}

impl Entry for u16 {
    /// The highest bit is set, so that no point is taken for the pattern.
    fn pattern() -> &'static [u16] {
        static POINTS: OnceLock<Vec<u16>> = OnceLock::new();
        POINTS.get_or_init(|| pattern_of(|number| number as u16 | 0x8000))
    }
}

impl Entry for PointRecord {
    /// The highest bit of the count is set, so that no record is taken for the
    /// pattern.
    fn pattern() -> &'static [PointRecord] {
        static RECORDS: OnceLock<Vec<PointRecord>> = OnceLock::new();
        let record = |number: u64| PointRecord {
            count: number as u16 | 0x8000,
            first: (number >> 16) as u16,
        };
        RECORDS.get_or_init(|| pattern_of(record))
    }
}

/// Where the page stands that the lent part touches.
#[derive(Clone, Copy, Debug, PartialEq)]
pub enum Guard {
    Behind,
    Before,
}

thread_local! {
    /// Where the next guard page stands: at either side in half of the cases, in
    /// an order that keeps no step with the calls of a test.
    static SIDES: RefCell<Generator> = RefCell::new(Generator::new(0));
}

impl Guard {
    fn next() -> Guard {
        let side = SIDES.with_borrow_mut(|sides| sides.below(2));
        [Guard::Behind, Guard::Before][side]
    }
}

/// Lent memory and a copy of it, with what stands beside it, as lent.
pub struct Lent<T> {
    as_lent: Vec<T>,
    /// The first entry of both, where the call may write or only read it.
    first: *mut T,
    /// Where the lent part begins, in entries from there.
    start: usize,
    length: usize,
    /// The memory, held as long as this value.
    _pages: Pages,
}

impl<T: Entry> Lent<T> {
    /// Puts a part and what stands beside it to memory; `place` gives the address
    /// at which it is lent.
    fn new(guard: Guard, part: &[T], beside: &[T], place: fn(&Pages) -> *mut u8) -> Lent<T> {
        let (as_lent, start) = match guard {
            Guard::Behind => ([beside, part].concat(), beside.len()),
            Guard::Before => ([part, beside].concat(), 0),
        };
        let bytes = size_of::<T>() * as_lent.len();
        let pages = Pages::new(bytes);
        let skipped = match guard {
            Guard::Behind => pages.bytes() - bytes,
            Guard::Before => 0,
        };
        let written = pages.written().wrapping_add(skipped).cast::<T>();
        // SAFETY: so many entries fit between the guard pages, and nothing refers
        // to them yet.
        unsafe { written.copy_from_nonoverlapping(as_lent.as_ptr(), as_lent.len()) };
        Lent {
            as_lent,
            first: place(&pages).wrapping_add(skipped).cast(),
            start,
            length: part.len(),
            _pages: pages,
        }
    }

    /// Room of so many entries, filled with a pattern that differs from length to
    /// length.
    pub fn room_at(guard: Guard, length: usize) -> Lent<T> {
        let others = &T::pattern()[BESIDE..];
        Lent::room_of_at(guard, &others[length % 64..][..length])
    }

    /// Room that holds the given entries, for a call to read and to change.
    pub fn room_of_at(guard: Guard, entries: &[T]) -> Lent<T> {
        Lent::new(guard, entries, &T::pattern()[..BESIDE], Pages::written)
    }

    /// Memory that holds the given entries, for a call to read; writing to it
    /// stops the test.
    pub fn holding_at(guard: Guard, entries: &[T]) -> Lent<T> {
        Lent::new(guard, entries, &T::pattern()[..BESIDE], Pages::read)
    }

    /// As `room_at`, with the guard page on either side.
    pub fn room(length: usize) -> Lent<T> {
        Lent::room_at(Guard::next(), length)
    }

    /// As `room_of_at`, with the guard page on either side.
    pub fn room_of(entries: &[T]) -> Lent<T> {
        Lent::room_of_at(Guard::next(), entries)
    }

    /// As `holding_at`, with the guard page on either side.
    pub fn holding(entries: &[T]) -> Lent<T> {
        Lent::holding_at(Guard::next(), entries)
    }

    /// The lent part and what stands beside it.
    fn memory(&self) -> &[T] {
        // SAFETY: so many entries stand there, in memory of this value's own.
        unsafe { slice::from_raw_parts(black_box(self.first), self.as_lent.len()) }
    }

    /// The lent part.
    pub fn part(&self) -> &[T] {
        &self.memory()[self.start..self.start + self.length]
    }

    /// The lent part of a room, to be written.
    pub fn part_mut(&mut self) -> &mut [T] {
        // SAFETY: so many entries stand there, and nothing else refers to them.
        unsafe { slice::from_raw_parts_mut(self.first.wrapping_add(self.start), self.length) }
    }

    /// All memory must be as lent, but for the answer at the front of the part.
    pub fn assert_front(&self, answer: &[T]) {
        let memory = self.memory();
        let end = self.start + answer.len();
        assert_eq!(memory[self.start..end], *answer, "the answer");
        assert_eq!(
            memory[..self.start],
            self.as_lent[..self.start],
            "memory before the lent part"
        );
        assert_eq!(
            memory[end..],
            self.as_lent[end..],
            "memory behind the answer, in a room of {}",
            self.length
        );
    }

    /// All memory must be as lent.
    pub fn assert_as_lent(&self) {
        self.assert_front(&[]);
    }
}

/// Entries of a room that an answer leaves over by far.
const AMPLE: usize = 5000;

/// The lengths of room to try for an answer of so many entries: exact, longer by
/// one and by many, one short, and none.
pub fn room_lengths(answer: usize) -> Vec<usize> {
    let mut lengths = vec![
        0,
        answer.saturating_sub(1),
        answer,
        answer + 1,
        answer + AMPLE,
    ];
    lengths.dedup();
    lengths
}

/// Makes a call with room of each length. `call` is given the room and whether
/// the answer fits, and compares the numbers; here the memory is compared. A
/// refused call has an empty answer, which fits.
pub fn with_each_room<T: Entry>(answer: &[T], mut call: impl FnMut(&mut [T], bool)) {
    for length in room_lengths(answer.len()) {
        let mut room = Lent::room(length);
        let fits = answer.len() <= length;
        call(room.part_mut(), fits);
        room.assert_front(if fits { answer } else { &[] });
    }
}

/// What may be done at an address, as Linux tells it: `r` for read and `w` for
/// write.
fn access_at(address: usize) -> String {
    let maps = fs::read_to_string("/proc/self/maps").expect("Linux tells the mappings");
    let holds = |line: &&str| {
        let range = line.split(' ').next().unwrap_or_default();
        let bounds = range.split('-');
        let bounds: Vec<usize> = bounds
            .map(|bound| usize::from_str_radix(bound, 16).expect("an address"))
            .collect();
        (bounds[0]..bounds[1]).contains(&address)
    };
    let line = maps.lines().find(holds).expect("a mapping");
    let access = line.split(' ').nth(1).expect("what may be done");
    access[..2].to_string()
}

/// What may be done right before a lent part, at its first and at its last entry,
/// and right behind it.
fn accesses<T: Entry>(lent: &Lent<T>) -> [String; 4] {
    let part = lent.part().as_ptr_range();
    let (start, end) = (part.start as usize, part.end as usize);
    [start - 1, start, end - 1, end].map(access_at)
}

/// The pages are as the tests count on them: no access beyond one side of a lent
/// part, and no writing to a list.
#[test]
fn guard_pages_and_lists_that_may_only_be_read() {
    for length in [1, 2, 31, 2047, 2048, 4096, 5000] {
        let room = |guard| accesses(&Lent::<u16>::room_at(guard, length));
        assert_eq!(room(Guard::Behind), ["rw", "rw", "rw", "--"]);
        assert_eq!(room(Guard::Before), ["--", "rw", "rw", "rw"]);
        let records = vec![PointRecord::default(); length];
        let changed = |guard| accesses(&Lent::room_of_at(guard, &records));
        assert_eq!(changed(Guard::Behind), ["rw", "rw", "rw", "--"]);
        assert_eq!(changed(Guard::Before), ["--", "rw", "rw", "rw"]);
        let list = |guard| accesses(&Lent::holding_at(guard, &vec![0u8; length]));
        assert_eq!(list(Guard::Behind), ["r-", "r-", "r-", "--"]);
        assert_eq!(list(Guard::Before), ["--", "r-", "r-", "r-"]);
    }
}
