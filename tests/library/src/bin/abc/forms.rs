//! The tables that ABC judges, each with the form that the library writes for it
//! and an altered form: functions built from a space and a restriction of at most
//! six variables, so that a form exists, known functions, and both with points
//! made free. Follows document 01, section "The written form"; every run has the
//! same tables.

use crate::networks;
use crate::Case;
use reference::form::{self, Factor, Form};
use reference::generate::{self, Generator};
use reference::table::Table;

/// Most inputs of a table.
const MOST_INPUTS: usize = 8;

/// Tables of each number of inputs: complete ones and ones with free points.
const COMPLETE: usize = 25;
const WITH_FREE: usize = 20;

/// The form that the library writes, if it accepts the table.
fn written((n, on, free): &Table) -> Option<Form> {
    let mut room = [0; 1555];
    let found = library::write_form(*n, on, free, &mut room);
    assert!(
        matches!(found.refusal, 0 | 5),
        "n {n}, on {on:?}, free {free:?}"
    );
    let bytes = &room[..found.length];
    (found.refusal == 0).then(|| form::read_form(bytes).expect("bytes of a form"))
}

/// Whether a form is true at each on point and false at each off point.
fn agrees((n, on, free): &Table, form: &Form) -> bool {
    let mut cared = (0..1u16 << n).filter(|point| !free.contains(point));
    cared.all(|point| form::form_holds(form, point) == on.contains(&point))
}

/// A factor with its constant changed, or with one variable more or less.
fn changed(generator: &mut Generator, n: usize, factor: Factor) -> Factor {
    let Factor { constant, mask } = factor;
    let other_mask = mask ^ 1 << generator.below(n);
    if other_mask == 0 || generator.chance(50) {
        let constant = 1 - constant;
        return Factor { constant, mask };
    }
    Factor {
        constant,
        mask: other_mask,
    }
}

/// The form with a product more or less, or with one of its factors taken away or
/// changed.
fn altered(generator: &mut Generator, form: &Form) -> Form {
    let mut form = form.clone();
    let n = form.variables;
    if form.products.is_empty() || generator.chance(10) {
        form.products.push(generate::random_product(generator, n));
        return form;
    }
    let place = generator.below(form.products.len());
    let product = &mut form.products[place];
    if product.is_empty() || generator.chance(20) {
        form.products.remove(place);
        return form;
    }
    let place = generator.below(product.len());
    match generator.chance(30) {
        true => drop(product.remove(place)),
        false => product[place] = changed(generator, n, product[place]),
    }
    form
}

/// A function of n variables built from a random space and a restriction of at
/// most six variables.
fn closed(generator: &mut Generator, n: usize) -> Table {
    let least = n.saturating_sub(6);
    let dimension = least + generator.below(n + 1 - least);
    let on_percent = 10 + generator.below(81);
    generate::closed_table(generator, n, dimension, on_percent)
}

/// Such a function with points made free: on and off points, on points alone or
/// off points alone. It has free points and a form.
fn with_free(generator: &mut Generator, n: usize) -> Table {
    loop {
        let whole = closed(generator, n);
        let percent = 1 + generator.below(60);
        let (_, kept, free) = generate::with_free_points(generator, &whole, percent);
        let was_on = |point: &u16| whole.1.contains(point);
        let (free_on, free_off) = free.iter().copied().partition(was_on);
        let table = match generator.below(3) {
            0 => (n, kept, free),
            1 => (n, kept, free_on),
            _ => (n, whole.1, free_off),
        };
        if !table.2.is_empty() && written(&table).is_some() {
            return table;
        }
    }
}

/// The constants, parities and thresholds that have a form, and the outputs of
/// adders of up to three bits.
fn known() -> Vec<Table> {
    let mut tables = Vec::new();
    for n in 1..=MOST_INPUTS {
        let all = (1u16 << n) - 1;
        tables.push(generate::table_of(n, |_| false));
        tables.push(generate::table_of(n, |_| true));
        tables.push(generate::parity(n, all, 0));
        tables.push(generate::parity(n, all, 1));
    }
    for n in 2..=6u32 {
        tables.extend((1..=n).map(|low| generate::threshold(n as usize, low)));
    }
    for width in 1..=3 {
        tables.extend((0..=width).map(|output| generate::adder_output(width, output)));
    }
    tables
}

/// A table with its form and an altered form, as ABC is given them.
fn case(generator: &mut Generator, table: Table) -> Case {
    let form = written(&table).expect("a table that has a form");
    let altered = altered(generator, &form);
    let still_agrees = agrees(&table, &altered);
    Case {
        what: format!("{table:?}, {form:?}, {altered:?}"),
        truth: networks::table(&table),
        networks: [
            (networks::form(&form, &table.2), true),
            (networks::form(&altered, &table.2), still_agrees),
        ],
    }
}

/// All tables.
pub fn all() -> Vec<Case> {
    let mut generator = Generator::new(190);
    let mut tables = known();
    for n in 1..=MOST_INPUTS {
        tables.extend((0..COMPLETE).map(|_| closed(&mut generator, n)));
        tables.extend((0..WITH_FREE).map(|_| with_free(&mut generator, n)));
    }
    let each = tables.into_iter();
    each.map(|table| case(&mut generator, table)).collect()
}
