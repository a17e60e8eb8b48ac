//! How many bytes of stack each call uses, measured: the stack below a call is
//! painted with a byte, and after the call the lowest changed byte is sought. The
//! most over many inputs counts, with two different bytes of paint. The calls are
//! those of document 01, section "What the library holds", and of document 02.

use glospruma::{PointRecord, FORM_ROOM, MAX_POINTS, MAX_VARIABLES, TABLE_LENGTH};
use reference::completion::MOST_CLOSURE_VARIABLES;
use reference::generate::{self, Generator};
use reference::table::{self, Table};
use std::arch::asm;
use std::hint::black_box;
use std::thread;

/// Bytes of the stack on which the calls are made.
const STACK: usize = 1 << 20;

/// Bytes painted below each call, more than any call uses.
const PAINTED: usize = STACK / 2;

/// Two bytes of paint, so that no byte that a call writes is taken for both.
const PAINTS: [u8; 2] = [0xA5, 0x5A];

/// The bytes of stack that a call uses below the frame of this function.
#[inline(never)]
fn used_once<T>(paint: u8, call: impl FnOnce() -> T) -> usize {
    let (mut top, mut lowest): (usize, usize);
    // SAFETY: what is painted lies below the stack pointer, where nothing lives,
    // and inside the stack of this thread.
    unsafe {
        asm!(
            "mov {top}, rsp",
            "lea rdi, [rsp - {painted}]",
            "cld",
            "rep stosb",
            top = out(reg) top,
            painted = const PAINTED,
            inout("rcx") PAINTED => _,
            out("rdi") _,
            in("al") paint,
            options(nostack)
        );
    }
    black_box(call());
    // SAFETY: the same bytes are read; the search ends at the first other one, at
    // the latest when all are read.
    unsafe {
        asm!(
            "cld",
            "repe scasb",
            inout("rcx") PAINTED => _,
            inout("rdi") top - PAINTED => lowest,
            in("al") paint,
            options(nostack, readonly)
        );
    }
    top - (lowest - 1)
}

/// The most that a call uses, by both paints.
fn used<T>(mut call: impl FnMut() -> T) -> usize {
    let depths = PAINTS.map(|paint| used_once(paint, &mut call));
    depths[0].max(depths[1])
}

/// Tables of every size: random ones with free points, ones that keep six
/// variables, ones with closure sets of every kind, and faulty ones.
fn tables() -> Vec<Table> {
    let mut generator = Generator::new(1);
    let last = (MAX_POINTS - 1) as u16;
    let mut tables = vec![(0, vec![], vec![]), (MAX_VARIABLES, vec![last], vec![])];
    for n in 1..=MAX_VARIABLES {
        tables.push((n, vec![0, 0], vec![]));
        tables.push((n, vec![0], vec![0]));
        tables.push(generate::threshold(n, 0));
        for percent in [0, 10, 50] {
            tables.push(generate::random_table(&mut generator, n, 45, percent));
            let kept = n.min(6);
            let table = generate::closed_table(&mut generator, n, n - kept, 50);
            tables.push(generate::with_free_points(&mut generator, &table, percent));
        }
    }
    for n in 1..=MOST_CLOSURE_VARIABLES {
        let sets = generate::closure_sets(&mut generator, n).into_iter();
        tables.extend(sets.map(|set| generate::table_with_closure_set(n, 0, &set)));
    }
    tables
}

/// Stored tables and forms, each also without its last byte, and bytes that are
/// neither.
fn inputs(tables: &[Table]) -> Vec<Vec<u8>> {
    let mut generator = Generator::new(2);
    let accepted = tables.iter().filter(|(n, _, _)| *n > 0);
    let mut inputs: Vec<Vec<u8>> = accepted
        .map(|(n, on, free)| table::write_stored(*n, on, free))
        .collect();
    for n in 1..=MAX_VARIABLES {
        for count in [0, 1, 64] {
            let form = generate::random_form(&mut generator, n, count);
            inputs.push(reference::form::encode(&form));
        }
    }
    let cuts: Vec<Vec<u8>> = inputs
        .iter()
        .map(|bytes| bytes[..bytes.len() - 1].to_vec())
        .collect();
    inputs.extend(cuts);
    inputs.push(vec![]);
    inputs.push(vec![0x4E; TABLE_LENGTH + 1]);
    inputs
}

/// Prints a row: the most that a call uses over all inputs.
fn row<I>(name: &str, inputs: &[I], mut depth: impl FnMut(&I) -> usize) {
    let most = inputs
        .iter()
        .map(&mut depth)
        .max()
        .expect("there are inputs");
    println!("| `glospruma_{name}` | {most} |");
}

/// The calls that take a table.
fn table_rows(tables: &[Table]) {
    let (mut points, mut bytes) = (vec![0; MAX_POINTS], vec![0; 65_536]);
    row("linear_space", tables, |(n, on, _)| {
        used(|| library::linear_space(*n, on))
    });
    row("complete", tables, |(n, on, free)| {
        used(|| library::complete(*n, on, free, &mut points))
    });
    row("analyse", tables, |(n, on, free)| {
        used(|| library::analyse(*n, on, free, &mut points))
    });
    row("affine", tables, |(n, on, _)| {
        used(|| library::affine(*n, on, &mut points))
    });
    row("list_primes", tables, |(n, on, free)| {
        used(|| library::list_primes(*n, on, free, 0, u64::MAX, &mut bytes))
    });
    row("write_form", tables, |(n, on, free)| {
        used(|| library::write_form(*n, on, free, &mut bytes))
    });
}

/// The calls that take bytes.
fn byte_rows(inputs: &[Vec<u8>]) {
    let (mut points, mut others) = (vec![0; MAX_POINTS], vec![0; MAX_POINTS]);
    let mut bytes = vec![0; 65_536];
    row("read_table", inputs, |input| {
        used(|| library::read_table(input, &mut points, &mut others))
    });
    // Beside the first input, which is a table, and beside itself.
    row("compare", inputs, |input| {
        let mut beside = |other: &[u8]| used(|| library::compare(input, other, 0, &mut bytes));
        beside(&inputs[0]).max(beside(input))
    });
    row("form_points", inputs, |input| {
        used(|| library::form_points(input, &mut points))
    });
    row("form_rewrite", inputs, |input| {
        used(|| library::form_rewrite(input, &mut bytes))
    });
    row("report", inputs, |input| {
        used(|| library::report(input, &mut bytes))
    });
}

/// The calls that build and change an index. The list holds that of the input, if this
/// is a form, before each change.
fn index_rows(inputs: &[Vec<u8>]) {
    let (mut list, mut room) = (vec![PointRecord::default(); MAX_POINTS], vec![0; FORM_ROOM]);
    let built = |input: &[u8]| {
        let mut list = vec![PointRecord::default(); MAX_POINTS];
        library::index_build(input, &mut list);
        list
    };
    row("index_build", inputs, |input| {
        used(|| library::index_build(input, &mut list))
    });
    let product = [0x50, 0x58, 1, 1, 0];
    row("index_append", inputs, |input| {
        let built = built(input);
        used(|| {
            list.copy_from_slice(&built);
            library::index_append(input, &product, &mut list, &mut room)
        })
    });
    row("index_remove", inputs, |input| {
        let built = built(input);
        used(|| {
            list.copy_from_slice(&built);
            library::index_remove(input, &mut list, &mut room)
        })
    });
}

fn main() {
    let measure = || {
        let tables = tables();
        println!("| call | bytes of stack |\n|---|---|");
        table_rows(&tables);
        let inputs = inputs(&tables);
        byte_rows(&inputs);
        index_rows(&inputs);
    };
    let thread = thread::Builder::new().stack_size(STACK).spawn(measure);
    let ended = thread.expect("a thread").join();
    ended.expect("the calls return");
}
