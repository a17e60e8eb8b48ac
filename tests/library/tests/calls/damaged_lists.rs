//! Lists of points damaged at random, several times over, and the answers of all
//! calls that take them compared with the reference. Longer runs: see
//! `random_run`. Follows document 01, sections "Points and spaces", "Primes" and
//! "Refusal numbers".

use crate::affine;
use crate::analyse;
use crate::complete;
use crate::lent::Lent;
use crate::linear_space;
use crate::list_primes::{self, ENDS};
use crate::lists;
use crate::random_run::{self, Run};
use crate::tables;
use crate::write_form;
use glospruma::{MAX_LISTED, MAX_POINTS, MAX_VARIABLES, RECORD_LENGTH, WRITTEN_ROOM};
use library::settings;
use reference::calls;
use reference::generate::{self, Generator};
use reference::numbers::{AffineNumbers, AnalysisNumbers, CompletionNumbers, FormNumbers};
use reference::refusal::SHORT_ROOM;
use reference::table::{self, Table};

/// Cases of a run, if the environment names no other number.
const CASES: usize = 100_000;

/// Whole tables to be damaged; most have at most six variables.
fn whole_tables(seed: u64) -> Vec<Table> {
    let all = tables::random_tables(seed).chain(tables::kept_tables(seed, 2, 7));
    let (narrow, wide): (Vec<_>, Vec<_>) = all.partition(|table| table.0 <= MAX_LISTED);
    let some_wide = wide.into_iter().step_by(20);
    narrow.into_iter().chain(some_wide).collect()
}

/// A point that means something at many places, or any other.
fn telling_point(generator: &mut Generator, n: usize) -> u16 {
    let size = 1u16 << n.clamp(1, MAX_VARIABLES);
    let most = MAX_POINTS as u16;
    let bounds = [0, size - 1, size, size + 1, most - 1, most, u16::MAX];
    match generator.below(4) {
        0 => bounds[generator.below(bounds.len())],
        1 => 1 << generator.below(16),
        2 => generator.below(usize::from(size)) as u16,
        _ => generator.next_number() as u16,
    }
}

/// Puts a point to its place in a list that rises, or anywhere.
fn put(generator: &mut Generator, list: &mut Vec<u16>, point: u16) {
    let in_order = list.partition_point(|&other| other < point);
    let place = match generator.chance(80) {
        true => in_order,
        false => generator.below(list.len() + 1),
    };
    list.insert(place, point);
}

/// A damage to one list of a table of n variables; the place is inside the list.
type Damage = fn(&mut Generator, usize, &mut Vec<u16>, usize);

const DAMAGES: [Damage; 9] = [
    |generator, n, list, place| list[place] = telling_point(generator, n),
    |generator, _, list, place| list[place] ^= 1 << generator.below(16),
    |generator, n, list, place| list[place] ^= 1 << generator.below(n.clamp(1, MAX_VARIABLES)),
    |_, _, list, place| list[place] = list[place].wrapping_add(1),
    |_, _, list, place| list.insert(place, list[place]),
    remove_point,
    |_, _, list, place| list.truncate(place),
    |generator, _, list, place| {
        let other = generator.below(list.len());
        list.swap(place, other);
    },
    |_, _, list, place| list.extend_from_within(place..),
];

fn remove_point(_: &mut Generator, _: usize, list: &mut Vec<u16>, place: usize) {
    list.remove(place);
}

/// Another number of variables: one more or less, or any that is tried elsewhere.
fn other_width(generator: &mut Generator, n: usize) -> usize {
    let counts = lists::variable_counts();
    match generator.below(4) {
        0 => n.wrapping_add(1),
        1 => n.wrapping_sub(1),
        _ => counts[generator.below(counts.len())],
    }
}

/// Damages a table once: a list alone, both lists together, or n.
fn damage(generator: &mut Generator, (n, on, free): &mut Table) {
    let (list, other) = match generator.chance(50) {
        true => (on, free),
        false => (free, on),
    };
    match generator.below(16) {
        0 => std::mem::swap(list, other),
        1 if generator.chance(50) => *n = other_width(generator, *n),
        1..=3 => {
            let point = telling_point(generator, *n);
            put(generator, list, point);
        }
        _ if list.is_empty() => {}
        draw => {
            let place = generator.below(list.len());
            match draw {
                4 => put(generator, other, list[place]),
                5 => {
                    let moved = list.remove(place);
                    put(generator, other, moved);
                }
                _ => DAMAGES[generator.below(DAMAGES.len())](generator, *n, list, place),
            }
        }
    }
}

/// Makes a list rise; its points may still be too large.
fn mend(list: &mut Vec<u16>) {
    list.sort_unstable();
    list.dedup();
}

/// One of the tables, or a new one, damaged up to four times; half of them have
/// their lists mended, and half of these have no point in both.
fn damaged(generator: &mut Generator, tables: &[Table]) -> Table {
    let mut table = match generator.chance(70) {
        true => tables[generator.below(tables.len())].clone(),
        false => {
            let (n, on_percent) = (1 + generator.below(6), generator.below(101));
            let free_percent = generator.below(101 - on_percent);
            generate::random_table(generator, n, on_percent, free_percent)
        }
    };
    for _ in 0..generator.below(5) {
        damage(generator, &mut table);
    }
    let (n, mut on, mut free) = table;
    if generator.chance(50) {
        mend(&mut on);
        mend(&mut free);
        if generator.chance(50) {
            free.retain(|point| on.binary_search(point).is_err());
        }
    }
    (n, on, free)
}

/// The calls of a run.
struct Takers {
    run: Run,
}

impl Takers {
    fn linear_space(&mut self, n: usize, on: &[u16]) {
        let found = library::linear_space(n, on);
        let expected = calls::linear_space(n, on);
        assert_eq!(linear_space::numbers(&found), expected, "{:?}", (n, on));
        self.run.tally.add(found.refusal);
    }

    /// Hands back how many variables the completed function keeps, none if the
    /// table is refused.
    fn complete(&mut self, n: usize, on: &[u16], free: &[u16]) -> Option<usize> {
        let mut answer = vec![0; MAX_POINTS];
        let accepted = calls::complete(n, on, free, &mut answer);
        let short = CompletionNumbers {
            refusal: SHORT_ROOM,
            ..Default::default()
        };
        let answer = &answer[..accepted.point_count];
        let call = |room: &mut [u16]| {
            let found = library::complete(n, on, free, room);
            (found.refusal, complete::numbers(&found))
        };
        let input = (n, on, free);
        self.run.compare(&input, answer, (accepted, short), call);
        (accepted.refusal == 0).then(|| n - accepted.degree)
    }

    fn analyse(&mut self, n: usize, on: &[u16], free: &[u16]) {
        let mut answer = vec![0; MAX_POINTS];
        let accepted = calls::analyse(n, on, free, &mut answer);
        let short = AnalysisNumbers {
            refusal: SHORT_ROOM,
            ..Default::default()
        };
        let answer = &answer[..accepted.restriction_count];
        let call = |room: &mut [u16]| {
            let found = library::analyse(n, on, free, room);
            (found.refusal, analyse::numbers(&found))
        };
        let input = (n, on, free);
        self.run.compare(&input, answer, (accepted, short), call);
    }

    fn affine(&mut self, n: usize, on: &[u16]) {
        let mut answer = vec![0; MAX_POINTS];
        let accepted = calls::affine(n, on, &mut answer);
        let short = AffineNumbers {
            refusal: SHORT_ROOM,
            ..Default::default()
        };
        let answer = &answer[..accepted.projection_count];
        let call = |room: &mut [u16]| {
            let found = library::affine(n, on, room);
            (found.refusal, affine::numbers(&found))
        };
        self.run.compare(&(n, on), answer, (accepted, short), call);
    }

    fn write_form(&mut self, n: usize, on: &[u16], free: &[u16]) {
        let mut answer = vec![0; WRITTEN_ROOM];
        let accepted = calls::write_form(n, on, free, &mut answer);
        let short = FormNumbers {
            refusal: SHORT_ROOM,
            ..Default::default()
        };
        let answer = &answer[..accepted.length];
        let call = |room: &mut [u8]| {
            let found = library::write_form(n, on, free, room);
            (found.refusal, write_form::numbers(&found))
        };
        let input = (n, on, free);
        self.run.compare(&input, answer, (accepted, short), call);
    }

    /// A place up to the end, at it, right behind it or far behind it.
    fn place(&mut self, n: usize) -> u64 {
        let end = ENDS[n.clamp(1, MAX_LISTED) - 1];
        match self.run.generator.below(16) {
            0 => end,
            1 => end + 1,
            2 => u64::MAX - self.run.generator.below(3) as u64,
            3..=8 => 0,
            _ => self.run.generator.below(end as usize) as u64,
        }
    }

    /// How many candidates a listing may pass: as many as there are if the
    /// reference is quick with them, and else mostly few.
    fn allowance(&mut self, n: usize) -> u64 {
        let is_quick = n < 5 || self.run.generator.chance(1);
        match self.run.generator.below(6) {
            0 => 0,
            1..=3 if is_quick => u64::MAX,
            _ => self.run.generator.below(60) as u64,
        }
    }

    fn list_primes(&mut self, n: usize, on: &[u16], free: &[u16]) {
        let (place, allowance) = (self.place(n), self.allowance(n));
        let length = match self.run.generator.below(4) {
            0 => self.run.generator.below(RECORD_LENGTH + 1),
            1 => RECORD_LENGTH * self.run.generator.below(60),
            _ => self.run.generator.below(500),
        };
        let mut room = Lent::room(length);
        let mut answer = vec![0; length];
        let (first, most) = (place as usize, allowance as usize);
        let expected = calls::list_primes(n, on, free, first, most, &mut answer);
        let found = library::list_primes(n, on, free, place, allowance, room.part_mut());
        let input = (n, on, free, place, allowance, length);
        assert_eq!(list_primes::numbers(&found), expected, "{input:?}");
        room.assert_front(&answer[..RECORD_LENGTH * expected.records]);
        self.run.tally.add(found.refusal);
    }

    /// Every call that takes lists. The reference tries every vector at every
    /// point, and lists all primes for a form, so that tables of many variables
    /// are only listed, and forms of many not written, but at times.
    fn all(&mut self, (n, on, free): &Table) {
        let (lent_on, lent_free) = (Lent::holding(on), Lent::holding(free));
        let (n, on, free) = (*n, lent_on.part(), lent_free.part());
        self.list_primes(n, on, free);
        let is_quick = n < 9 || table::check(n, on, free).is_err();
        if is_quick || self.run.generator.chance(5) {
            self.linear_space(n, on);
            self.analyse(n, on, free);
            self.affine(n, on);
            let kept = self.complete(n, on, free);
            let is_quick = kept.is_none_or(|kept| !(5..=MAX_LISTED).contains(&kept));
            if is_quick || self.run.generator.chance(2) {
                self.write_form(n, on, free);
            }
        }
        lent_on.assert_as_lent();
        lent_free.assert_as_lent();
    }
}

#[test]
fn at_random() {
    let tables = whole_tables(random_run::seed());
    let mut takers = Takers {
        run: Run::new("all takers of lists, damaged at random"),
    };
    for _ in 0..settings::cases(CASES) {
        let table = damaged(&mut takers.run.generator, &tables);
        takers.all(&table);
    }
    takers.run.tally.finish(&[0, 1, 2, 3, 4, 5, 6, 7, 9]);
}
