//! Stored tables as bytes, whole and damaged in every way. Follows document 01,
//! section "The written form", and document 02, No. 3. Of each list the share is made
//! that the environment asks for.

use glospruma::{MAX_POINTS, MAX_VARIABLES, TABLE_LENGTH};
use library::settings::some;
use reference::generate::{self, Generator};
use reference::table::{self, Table};
use reference::walk::{KIND_END, KIND_FREE, KIND_ON};

/// The least number of variables above all that are accepted.
pub const ABOVE: u8 = MAX_VARIABLES as u8 + 1;

/// The stored bytes of a table.
pub fn bytes_of((n, on, free): &Table) -> Vec<u8> {
    table::write_stored(*n, on, free)
}

/// A stored table without points, of as many variables as some bytes say, whether
/// these are a stored table or not.
pub fn empty_beside(bytes: &[u8]) -> Vec<u8> {
    let variables = bytes.get(1).copied().unwrap_or(1);
    table::write_records(variables, &[])
}

/// A short stored table for each n from 0 to two more than is accepted.
pub fn short_tables(generator: &mut Generator) -> Vec<Vec<u8>> {
    let mut all = Vec::new();
    for n in 0..=MAX_VARIABLES + 2 {
        let width = n.clamp(1, 4);
        let (_, on, free) = generate::random_table(generator, width, 40, 30);
        all.push(table::write_stored(n, &on, &free));
    }
    all
}

/// Every damage to short bytes: each byte changed to each other value, each cut,
/// each extension, and counts off by one and by 256.
pub fn every_damage(bytes: &[u8]) -> Vec<Vec<u8>> {
    let mut all: Vec<Vec<u8>> = generate::every_changed_byte(bytes).collect();
    all.extend(generate::cuts(bytes));
    all.extend(generate::extensions(bytes));
    all.extend(generate::wrong_counts(bytes));
    some(all).collect()
}

/// Damages to long bytes: bytes changed and cuts at both ends and at some places
/// between, each single byte after them, and the wrong counts.
pub fn some_damages(generator: &mut Generator, bytes: &[u8]) -> Vec<Vec<u8>> {
    let mut all: Vec<Vec<u8>> = generate::wrong_counts(bytes).collect();
    let length = bytes.len();
    let mut places: Vec<usize> = (0..8).chain(length - 8..length).collect();
    places.extend((0..200).map(|_| generator.below(length)));
    for place in places {
        let mut changed = bytes.to_vec();
        changed[place] ^= 1 + generator.below(255) as u8;
        all.push(changed);
        all.push(bytes[..place].to_vec());
    }
    all.extend((0..=255).map(|byte| [bytes, &[byte]].concat()));
    some(all).collect()
}

/// Stored bytes of so many records, on and free in turn, with points from 0 on.
fn many_records(n: u8, count: u16) -> Vec<u8> {
    let kind = |point: u16| if point % 3 == 1 { KIND_FREE } else { KIND_ON };
    let records: Vec<(u8, u16)> = (0..count).map(|point| (kind(point), point)).collect();
    table::write_records(n, &records)
}

/// Numbers of variables about the largest one.
const ABOUT_LARGEST: [u8; 3] = [ABOVE - 2, ABOVE - 1, ABOVE];

/// Inputs about the longest table: full ones, a record more with and without the
/// end, and longer ones, for numbers of variables good and refused.
pub fn longest() -> Vec<Vec<u8>> {
    let most = MAX_POINTS as u16;
    let counts = [most - 1, most, most + 1, most + 2, 2 * most, 65_535];
    let mut all = Vec::new();
    for n in [0, 3].into_iter().chain(ABOUT_LARGEST).chain([255]) {
        all.extend(counts.map(|count| many_records(n, count)));
        let full = many_records(n, most);
        all.push([&full[..], &[0]].concat());
        all.push([&full[..], &full].concat());
        let without_end = &many_records(n, most + 1)[..TABLE_LENGTH];
        all.push(without_end.to_vec());
        let (records, end) = full.split_at(TABLE_LENGTH - 3);
        all.push([records, &[KIND_END, 0, 0], end].concat());
    }
    all.push(vec![0; TABLE_LENGTH]);
    all.push(vec![0x4E; TABLE_LENGTH + 1]);
    all.push(vec![0x45; 100_000]);
    some(all).collect()
}

/// Records whose layout is good and whose points are too large, equal or
/// falling, and several of these at once, over both kinds.
pub fn faulty_points() -> Vec<Vec<u8>> {
    let points: [&[u16]; 12] = [
        &[4],
        &[MAX_POINTS as u16],
        &[65_535],
        &[0, 4, 4],
        &[1, 1, 4],
        &[4, 1, 1],
        &[1, 1],
        &[0, 1, 2, 3, 3],
        &[2, 1],
        &[0, 3, 2],
        &[3, 2, 1, 0],
        &[256, 1],
    ];
    let mut all = Vec::new();
    for n in [0, 1, 2, 8, 9].into_iter().chain(ABOUT_LARGEST) {
        for list in points {
            for kinds in 0..1u32 << list.len() {
                let kind = |place: usize| [KIND_ON, KIND_FREE][(kinds >> place & 1) as usize];
                let numbered = list.iter().enumerate();
                let records: Vec<(u8, u16)> = numbered
                    .map(|(place, &point)| (kind(place), point))
                    .collect();
                all.push(table::write_records(n, &records));
            }
        }
    }
    some(all).collect()
}

/// A few records after a first one: mostly of the right kinds, mostly with
/// rising points below 2^n, mostly with the right count and nothing after it.
pub fn random_records(generator: &mut Generator) -> Vec<u8> {
    let variables = generator.below(MAX_VARIABLES + 2) as u8;
    let wide = generator.chance(10);
    let mut point = generator.below(3) as u16;
    let mut records = Vec::new();
    for _ in 0..generator.below(6) {
        let kind = match generator.below(40) {
            0 => generator.below(256) as u8,
            draw => [KIND_ON, KIND_FREE][draw % 2],
        };
        records.push((kind, point));
        point = point.wrapping_add(generator.below(4) as u16 + u16::from(!generator.chance(10)));
        if wide && generator.chance(20) {
            point = generator.next_number() as u16;
        }
    }
    let mut bytes = table::write_records(variables, &records);
    if generator.chance(10) {
        let last = bytes.len() - 1 - generator.below(3);
        bytes[last] = generator.below(8) as u8;
    }
    if generator.chance(5) {
        bytes.push(generator.below(256) as u8);
    }
    bytes
}
