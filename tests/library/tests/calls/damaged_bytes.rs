//! Stored tables and forms damaged at random, several times over, and the answers
//! of all calls that read them compared with the reference. Longer runs: see
//! `random_run`. Follows document 01, sections "The written form" and "Refusal
//! numbers", and document 02, No. 1, No. 3 and No. 5.

use crate::compare;
use crate::form_points;
use crate::form_rewrite;
use crate::forms;
use crate::index::{self, Call};
use crate::judges;
use crate::lent::{Entry, Lent};
use crate::random_run::{self, Run};
use crate::read_table;
use crate::report;
use crate::stored;
use crate::tables;
use glospruma::{COMPARISON_ROOM, DIFFERENCE_LENGTH, MAX_POINTS, MAX_VARIABLES};
use library::settings;
use library::PointRecord;
use reference::calls;
use reference::form;
use reference::generate::{self, Generator};
use reference::numbers::{FormPointsNumbers, ReportNumbers, RewriteNumbers};
use reference::refusal::SHORT_ROOM;
use reference::walk::{self, KIND_FACTOR, KIND_FREE, KIND_ON, KIND_PRODUCT};

/// Cases of a run, if the environment names no other number.
const CASES: usize = 500_000;

/// Forms of fewer variables are indexed in every case: the reference tries every
/// point.
const QUICK: u8 = 7;

/// Whole stored tables and forms to be damaged; most are short.
fn whole_inputs(seed: u64) -> Vec<Vec<u8>> {
    let tables = tables::random_tables(seed).chain(tables::kept_tables(seed, 2, 6));
    let tables = tables.map(|table| stored::bytes_of(&table));
    let forms = forms::random_forms(seed).chain(forms::most_products());
    let all = tables.chain(forms);
    let (short, long): (Vec<_>, Vec<_>) = all.partition(|bytes| bytes.len() < 120);
    let some_long = long.into_iter().step_by(80);
    short.into_iter().chain(some_long).collect()
}

/// A damage to bytes; the place is inside them.
type Damage = fn(&mut Generator, &mut Vec<u8>, usize);

const DAMAGES: [Damage; 10] = [
    |generator, bytes, place| bytes[place] = generate::telling_byte(generator),
    |generator, bytes, place| bytes[place] ^= 1 << generator.below(8),
    |_, bytes, place| bytes[place] = bytes[place].wrapping_add(1),
    |generator, bytes, place| bytes.insert(place, generate::telling_byte(generator)),
    |generator, bytes, _| bytes.push(generate::telling_byte(generator)),
    |_, bytes, place| bytes.truncate(place),
    remove_piece,
    repeat_piece,
    swap_pieces,
    |_, bytes, _| mend_count(bytes),
];

/// The lengths of records of both kinds of input, so that whole ones are moved.
fn piece(generator: &mut Generator, bytes: &[u8], place: usize) -> Vec<u8> {
    let length = [1, 3, 4, 5][generator.below(4)];
    bytes[place..bytes.len().min(place + length)].to_vec()
}

fn remove_piece(generator: &mut Generator, bytes: &mut Vec<u8>, place: usize) {
    let removed = piece(generator, bytes, place).len();
    bytes.drain(place..place + removed);
}

fn repeat_piece(generator: &mut Generator, bytes: &mut Vec<u8>, place: usize) {
    let repeated = piece(generator, bytes, place);
    bytes.splice(place..place, repeated);
}

fn swap_pieces(generator: &mut Generator, bytes: &mut Vec<u8>, place: usize) {
    let moved = piece(generator, bytes, place);
    bytes.drain(place..place + moved.len());
    let target = generator.below(bytes.len() + 1);
    bytes.splice(target..target, moved);
}

/// Makes the last number that of the records before it, for a table or a form.
fn mend_count(bytes: &mut [u8]) {
    let (mut place, mut count) = (2, 0u16);
    while place + 3 < bytes.len() {
        let (length, counted) = match bytes[place] {
            KIND_PRODUCT => (1, 1),
            KIND_FACTOR => (4, 0),
            _ => (3, 1),
        };
        place += length;
        count += counted;
    }
    if let Some(body) = bytes.len().checked_sub(2) {
        bytes[body..].copy_from_slice(&walk::number_bytes(count));
    }
}

/// One of the inputs, or the start of one with the rest of another, damaged up to
/// four times; half of them have their count mended.
fn damaged(generator: &mut Generator, inputs: &[Vec<u8>]) -> Vec<u8> {
    let mut bytes = inputs[generator.below(inputs.len())].clone();
    if generator.chance(10) {
        let other = &inputs[generator.below(inputs.len())];
        bytes.truncate(generator.below(bytes.len() + 1));
        bytes.extend(&other[generator.below(other.len() + 1)..]);
    }
    for _ in 0..generator.below(5) {
        if !bytes.is_empty() {
            let place = generator.below(bytes.len());
            DAMAGES[generator.below(DAMAGES.len())](generator, &mut bytes, place);
        }
    }
    if generator.chance(50) {
        mend_count(&mut bytes);
    }
    bytes
}

/// The bytes with some on points made free, and some free points made on.
fn other_kinds(generator: &mut Generator, bytes: &[u8]) -> Vec<u8> {
    let mut bytes = bytes.to_vec();
    for kind in bytes.iter_mut().skip(2).step_by(3) {
        if matches!(*kind, KIND_ON | KIND_FREE) && generator.chance(30) {
            *kind ^= KIND_ON ^ KIND_FREE;
        }
    }
    bytes
}

/// Bytes to be laid beside others, often a table where these are one: with other
/// kinds of points, without points, or damaged further.
fn beside(generator: &mut Generator, bytes: &[u8]) -> Vec<u8> {
    match generator.below(3) {
        0 => other_kinds(generator, bytes),
        1 => stored::empty_beside(bytes),
        _ => damaged(generator, &[bytes.to_vec()]),
    }
}

/// The calls of a run.
struct Readers {
    run: Run,
}

impl Readers {
    fn form_points(&mut self, bytes: &[u8]) {
        let mut answer = vec![0; MAX_POINTS];
        let accepted = calls::form_points(bytes, &mut answer);
        let short = FormPointsNumbers {
            refusal: SHORT_ROOM,
            ..Default::default()
        };
        let answer = &answer[..accepted.point_count];
        let call = |room: &mut [u16]| {
            let found = library::form_points(bytes, room);
            judges::assert_form(bytes, (found.refusal, found.place));
            (found.refusal, form_points::numbers(&found))
        };
        self.run.compare(&bytes, answer, (accepted, short), call);
    }

    fn form_rewrite(&mut self, bytes: &[u8]) {
        let mut answer = vec![0; bytes.len()];
        let accepted = calls::form_rewrite(bytes, &mut answer);
        let short = RewriteNumbers {
            refusal: SHORT_ROOM,
            ..Default::default()
        };
        let answer = &answer[..accepted.length];
        let call = |room: &mut [u8]| {
            let found = library::form_rewrite(bytes, room);
            judges::assert_form(bytes, (found.refusal, found.place));
            (found.refusal, form_rewrite::numbers(&found))
        };
        self.run.compare(&bytes, answer, (accepted, short), call);
    }

    fn report(&mut self, bytes: &[u8]) {
        let text = reference::report::report(bytes);
        judges::assert_report(bytes, text.as_bytes());
        let accepted = ReportNumbers {
            refusal: 0,
            length: text.len(),
        };
        let short = ReportNumbers {
            refusal: SHORT_ROOM,
            length: 0,
        };
        let call = |room: &mut [u8]| {
            let found = library::report(bytes, room);
            (found.refusal, report::numbers(&found))
        };
        self.run
            .compare(&bytes, text.as_bytes(), (accepted, short), call);
    }

    /// The bytes are on the left or on the right.
    fn compare(&mut self, bytes: &[u8]) {
        let generator = &mut self.run.generator;
        let other = beside(generator, bytes);
        let (left, right) = match generator.chance(50) {
            true => (bytes, &other[..]),
            false => (&other[..], bytes),
        };
        let first = match generator.below(4) {
            0 => generator.below(70),
            1 => 1 << generator.below(64),
            _ => 0,
        };
        let mut room = vec![0; COMPARISON_ROOM];
        let records = calls::compare(left, right, first, &mut room).records;
        let length = self.run.room_length(DIFFERENCE_LENGTH * records);
        compare::compare(&mut self.run.tally, (left, right), first, length);
    }

    /// A list for some bytes: if they are a form, mostly its records and sometimes a
    /// few more, or with one of them changed.
    fn list(&mut self, bytes: &[u8]) -> Vec<PointRecord> {
        let generator = &mut self.run.generator;
        let Ok(form) = form::read_form(bytes) else {
            return PointRecord::pattern()[..generator.below(20)].to_vec();
        };
        let mut list = index::records_of(&form);
        let place = generator.below(list.len());
        match generator.below(8) {
            0 => list.truncate(place),
            1 => list[place].count ^= 1 << generator.below(16),
            2 => list[place].first ^= 1 << generator.below(16),
            3 => list.extend(&PointRecord::pattern()[..generator.below(4)]),
            _ => {}
        }
        list
    }

    /// A product to be appended to some bytes, damaged in half of the cases.
    fn product(&mut self, bytes: &[u8]) -> Vec<u8> {
        let generator = &mut self.run.generator;
        let n = usize::from(bytes.get(1).copied().unwrap_or(1)).clamp(1, MAX_VARIABLES);
        let product = generate::random_product(generator, n);
        let bytes = index::product_bytes(n, &product);
        match generator.chance(50) {
            true => damaged(generator, &[bytes]),
            false => bytes,
        }
    }

    /// One of the calls on an index, of the bytes as a form.
    fn index(&mut self, bytes: &[u8]) {
        let (list, product) = (self.list(bytes), self.product(bytes));
        let (call, length) = match self.run.generator.below(4) {
            0 => (Call::Build, 0),
            1 => (Call::Remove, bytes.len().saturating_sub(5)),
            _ => (Call::Append(&product), bytes.len() + product.len()),
        };
        let length = self.run.room_length(length);
        index::compare(&mut self.run.tally, bytes, call, &list, length);
    }

    /// Every call that reads bytes. The reference lists all primes for a report,
    /// so that a table of many variables is reported only at times.
    fn all(&mut self, bytes: &[u8]) {
        let (mut on, mut free) = (vec![0; MAX_POINTS], vec![0; MAX_POINTS]);
        let table = calls::read_table(bytes, &mut on, &mut free);
        let on_length = self.run.room_length(table.on_count);
        let free_length = self.run.room_length(table.free_count);
        read_table::compare(&mut self.run.tally, bytes, on_length, free_length);
        self.compare(bytes);
        let lent = Lent::holding(bytes);
        self.form_points(lent.part());
        self.form_rewrite(lent.part());
        let is_quick = table.refusal != 0 || table.variables < 5;
        if is_quick || self.run.generator.chance(2) {
            self.report(lent.part());
        }
        lent.assert_as_lent();
        let is_quick = bytes.get(1) < Some(&QUICK);
        if self.run.generator.chance(if is_quick { 40 } else { 4 }) {
            self.index(bytes);
        }
    }
}

#[test]
fn at_random() {
    let inputs = whole_inputs(random_run::seed());
    let mut readers = Readers {
        run: Run::new("all readers, bytes damaged at random"),
    };
    for _ in 0..settings::cases(CASES) {
        let bytes = damaged(&mut readers.run.generator, &inputs);
        readers.all(&bytes);
    }
    let faults = [20, 21, 22, 23, 24, 25, 26, 27];
    let expected = [&[0, 1, 2, 3, 7, 10, 11, 12, 17][..], &faults].concat();
    readers.run.tally.finish(&expected);
}
