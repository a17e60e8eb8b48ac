//! Times of building and changing the index of a form. Before each change the list is
//! copied from one that holds the index, which both sides do alike and which is
//! timed too. The first row of a case has plain Rust by the library's algorithm, the second
//! with the form decoded first. The test whether the list is that of the form tries every
//! product at every point: a third row has plain Rust without it, and a form without
//! products has next to none of it. Follows document 02, No. 5.

use crate::measure;
use crate::plain::{self, Way};
use crate::VARIABLES;
use glospruma::{FORM_ROOM, MAX_POINTS};
use library::{Indexed, PointRecord};
use reference::form::{self, MOST_PRODUCTS};
use reference::generate::{self, Generator};
use std::hint::black_box;

/// Forms of a case.
const FORMS: usize = 8;

/// Few products of a form.
const FEW: usize = 8;

/// A form, its index, and a product to be appended.
struct Input {
    form: Vec<u8>,
    index: Vec<PointRecord>,
    product: Vec<u8>,
}

/// Memory that a call is lent.
struct Memory {
    list: Vec<PointRecord>,
    room: Vec<u8>,
}

impl Memory {
    fn new() -> Memory {
        Memory {
            list: vec![PointRecord::default(); MAX_POINTS],
            room: vec![0; FORM_ROOM],
        }
    }
}

/// A call on an input.
type Call = fn(&Input, &mut Memory) -> Indexed;

/// An input of a form and the bytes of a product.
fn input(form: Vec<u8>, product: Vec<u8>) -> Input {
    let mut index = vec![PointRecord::default(); MAX_POINTS];
    library::index_build(&form, &mut index);
    Input {
        form,
        index,
        product,
    }
}

/// Random forms of so many products, and a random product for each.
fn inputs(products: usize) -> Vec<Input> {
    let mut generator = Generator::new(4);
    let forms = 0..FORMS;
    let one = |_| {
        let form = generate::random_form(&mut generator, VARIABLES, products);
        let alone = form::encode(&generate::random_form(&mut generator, VARIABLES, 1));
        let product = alone[2..alone.len() - 3].to_vec();
        input(form::encode(&form), product)
    };
    forms.map(one).collect()
}

/// Makes a call on a list with the index, hidden from the optimizer.
fn make(call: Call, input: &Input, memory: &mut Memory) -> Indexed {
    memory.list.copy_from_slice(&input.index);
    call(black_box(input), black_box(memory))
}

/// Both sides must return and leave the same.
fn assert_alike(library_call: Call, plain_call: Call, input: &Input) {
    let (mut left, mut right) = (Memory::new(), Memory::new());
    let answer = make(library_call, input, &mut left);
    assert_eq!(answer, make(plain_call, input, &mut right));
    assert_eq!((left.list, left.room), (right.list, right.room));
}

/// Times a call, after a comparison of what both sides return and leave.
fn row(title: &str, inputs: &[Input], library_call: Call, plain_call: Call) {
    for input in inputs {
        assert_alike(library_call, plain_call, input);
    }
    let (mut library_memory, mut plain_memory) = (Memory::new(), Memory::new());
    measure::compare(
        title,
        inputs,
        |input| make(library_call, input, &mut library_memory),
        |input| make(plain_call, input, &mut plain_memory),
    );
}

/// The library, and plain Rust by the same algorithm and with the form decoded.
const BUILD: [Call; 3] = [
    |input, memory| library::index_build(&input.form, &mut memory.list),
    |input, memory| plain::index_build(Way::Bytes, &input.form, &mut memory.list),
    |input, memory| plain::index_build(Way::Decoded, &input.form, &mut memory.list),
];

/// Appends by plain Rust.
fn append(way: Way, input: &Input, memory: &mut Memory) -> Indexed {
    let Memory { list, room } = memory;
    plain::index_append(way, &input.form, &input.product, list, room)
}

/// Takes away by plain Rust.
fn remove(way: Way, input: &Input, memory: &mut Memory) -> Indexed {
    let Memory { list, room } = memory;
    plain::index_remove(way, &input.form, list, room)
}

/// The same of appends, and plain Rust without the test for 17 too.
const APPEND: [Call; 4] = [
    |input, memory| {
        let Memory { list, room } = memory;
        library::index_append(&input.form, &input.product, list, room)
    },
    |input, memory| append(Way::Bytes, input, memory),
    |input, memory| append(Way::Decoded, input, memory),
    |input, memory| append(Way::Untested, input, memory),
];

/// The same of removals.
const REMOVE: [Call; 4] = [
    |input, memory| library::index_remove(&input.form, &mut memory.list, &mut memory.room),
    |input, memory| remove(Way::Bytes, input, memory),
    |input, memory| remove(Way::Decoded, input, memory),
    |input, memory| remove(Way::Untested, input, memory),
];

const DECODED: &str = "  beside plain Rust with the form decoded";

const UNTESTED: &str = "  beside that without the test 17";

/// Times a change, beside plain Rust in three ways.
fn change(title: &str, inputs: &[Input], calls: [Call; 4]) {
    let [library_call, walked, decoded, untested] = calls;
    row(title, inputs, library_call, walked);
    row(DECODED, inputs, library_call, decoded);
    row(UNTESTED, inputs, library_call, untested);
}

/// Both sides refuse damaged forms, damaged products and other lists alike.
fn assert_refused_alike() {
    let whole = inputs(2).swap_remove(0);
    let damages = |bytes: &[u8]| {
        let changed = generate::cuts(bytes).chain(generate::every_changed_byte(bytes));
        let all = changed.chain(generate::extensions(bytes));
        all.collect::<Vec<Vec<u8>>>()
    };
    for form in damages(&whole.form) {
        let damaged = input(form, whole.product.clone());
        assert_alike(BUILD[0], BUILD[1], &damaged);
        assert_alike(APPEND[0], APPEND[1], &damaged);
        assert_alike(REMOVE[0], REMOVE[1], &damaged);
    }
    for product in damages(&whole.product) {
        assert_alike(APPEND[0], APPEND[1], &input(whole.form.clone(), product));
    }
    let mut other = input(whole.form.clone(), whole.product.clone());
    other.index[MAX_POINTS - 1].first ^= 1;
    assert_alike(APPEND[0], APPEND[1], &other);
    assert_alike(REMOVE[0], REMOVE[1], &other);
}

/// Times the calls on forms of twelve variables.
pub fn indices() {
    assert_refused_alike();
    for count in [FEW, MOST_PRODUCTS] {
        let (title, inputs) = (
            format!("index build, n 12, {count} products"),
            inputs(count),
        );
        row(&title, &inputs, BUILD[0], BUILD[1]);
        row(DECODED, &inputs, BUILD[0], BUILD[2]);
    }
    for count in [0, FEW, MOST_PRODUCTS - 1] {
        let title = format!("index append, n 12, {count} products");
        change(&title, &inputs(count), APPEND);
    }
    for count in [FEW, MOST_PRODUCTS] {
        let title = format!("index remove, n 12, {count} products");
        change(&title, &inputs(count), REMOVE);
    }
}
