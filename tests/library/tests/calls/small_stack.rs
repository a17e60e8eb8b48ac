//! Every call in a thread with as little stack as include/glospruma.h asks for;
//! one that used more would touch the thread's guard page and stop the test. The
//! program `stack` prints what each call uses. Follows document 01, section "What
//! the library holds", and document 02, No. 1, No. 3, No. 4 and No. 5.

use crate::lent_calls;
use crate::stored;
use glospruma::{PointRecord, FORM_ROOM, MAX_POINTS, MAX_VARIABLES, REPORT_ROOM, WRITTEN_ROOM};
use reference::completion::MOST_CLOSURE_VARIABLES;
use reference::generate::{self, Generator};
use reference::table::Table;
use std::thread;

/// Bytes of stack that suffice for any call.
const STACK: usize = 128 * 1024;

/// Makes every call on a table and on what is written for it.
fn make_calls((n, on, free): &Table) {
    let (n, bytes) = (*n, stored::bytes_of(&(*n, on.clone(), free.clone())));
    let (mut points, mut others) = (vec![0; MAX_POINTS], vec![0; MAX_POINTS]);
    let (mut form, mut text) = (vec![0; WRITTEN_ROOM], vec![0; REPORT_ROOM]);
    let read = lent_calls::read_table(&bytes, &mut points, &mut others);
    assert_eq!((read.refusal, read.variables), (0, n));
    let cut = &bytes[..bytes.len() - 1];
    let refused = lent_calls::read_table(cut, &mut points, &mut others);
    assert_eq!((refused.refusal, refused.place), (21, cut.len()));
    let empty = stored::bytes_of(&(n, vec![], vec![]));
    let compared = lent_calls::compare(&bytes, &empty, 0, &mut text);
    assert_eq!((compared.refusal, compared.next), (0, 1 << n));
    assert_eq!(lent_calls::linear_space(n, on).refusal, 0);
    assert_eq!(lent_calls::affine(n, on, &mut points).refusal, 0);
    assert_eq!(lent_calls::analyse(n, on, free, &mut points).refusal, 0);
    assert_eq!(lent_calls::complete(n, on, free, &mut points).refusal, 0);
    let listed = lent_calls::list_primes(n, on, free, 0, u64::MAX, &mut text);
    assert_eq!(listed.refusal, if n > 6 { 5 } else { 0 });
    let written = lent_calls::write_form(n, on, free, &mut form);
    if written.refusal != 5 {
        let form = &form[..written.length];
        assert_eq!(lent_calls::form_points(form, &mut points).refusal, 0);
        assert_eq!(lent_calls::form_rewrite(form, &mut text).refusal, 0);
        let cut = &form[..form.len() - 1];
        let refused = lent_calls::form_points(cut, &mut points);
        assert_eq!((refused.refusal, refused.place), (21, cut.len()));
        make_index_calls(form);
    }
    assert_eq!(lent_calls::report(&bytes, &mut text).refusal, 0);
}

/// Makes every call that builds or changes the index of a form.
fn make_index_calls(form: &[u8]) {
    let mut list = vec![PointRecord::default(); MAX_POINTS];
    let (mut room, mut back) = (vec![0; FORM_ROOM], vec![0; FORM_ROOM]);
    let built = lent_calls::index_build(form, &mut list);
    assert_eq!((built.refusal, built.length), (0, form.len()));
    let appended = lent_calls::index_append(form, &[0x50], &mut list, &mut room);
    assert_eq!(
        (appended.refusal, appended.products),
        (0, built.products + 1)
    );
    let refused = lent_calls::index_remove(form, &mut list, &mut back);
    assert_eq!(refused.refusal, 17);
    let removed = lent_calls::index_remove(&room[..appended.length], &mut list, &mut back);
    assert_eq!((removed.refusal, removed.products), (0, built.products));
    assert_eq!(&back[..removed.length], form);
}

#[test]
fn every_call() {
    let mut generator = Generator::new(200);
    let mut tables = vec![];
    for n in 1..=MAX_VARIABLES {
        let function = generate::closed_table(&mut generator, n, n - n.min(6), 60);
        tables.push(generate::with_free_points(&mut generator, &function, 5));
        tables.push(function);
        tables.push(generate::random_table(&mut generator, n, 60, 20));
    }
    for n in 1..=MOST_CLOSURE_VARIABLES {
        for kept in [0, n / 2, n] {
            let set = generate::outside_first_variables(n, kept);
            tables.push(generate::table_with_closure_set(n, 0, &set));
        }
    }
    tables.retain(|(_, on, _)| !on.is_empty());
    let calls = move || tables.iter().for_each(make_calls);
    let thread = thread::Builder::new().stack_size(STACK).spawn(calls);
    thread.expect("a thread").join().expect("no call fails");
}
