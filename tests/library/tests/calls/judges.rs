//! The second judge of the reference, module `faults`, beside an answer of the
//! library: where it lists faults of the bytes, number and place are those of the
//! first; where it lists none, no such number is given, and the place is 0. The
//! first judge, the walk, is behind every answer of the reference. Follows document
//! 02, No. 3 and No. 5.

use reference::faults::{self, Fault};
use reference::form::MOST_PRODUCTS;
use reference::refusal::{TOO_MANY_PRODUCTS, WITH_PLACE};
use reference::table;
use reference::walk::KIND_END;

/// The number and the place of an answer.
pub type Refused = (u8, usize);

/// The answer must be that of a fault, or of none.
fn assert_first(fault: Option<&Fault>, (refusal, place): Refused, bytes: &[u8]) {
    match fault {
        Some(Fault { refused, why }) => {
            let expected = (refused.refusal, refused.place);
            assert_eq!((refusal, place), expected, "{why}: {bytes:X?}");
        }
        None => {
            assert!(!WITH_PLACE.contains(&refusal), "{refusal}: {bytes:X?}");
            assert_eq!(place, 0, "the place of {refusal}: {bytes:X?}");
        }
    }
}

/// Judges an answer on a stored table.
pub fn assert_table(bytes: &[u8], answer: Refused) {
    assert_first(faults::of_table(bytes).first(), answer, bytes);
}

/// Judges an answer on two stored tables: the right one's faults count if the left
/// one is accepted.
pub fn assert_tables(left: &[u8], right: &[u8], answer: Refused) {
    let bytes = match table::read_stored(left) {
        Ok(_) => right,
        Err(_) => left,
    };
    assert_table(bytes, answer);
}

/// Judges an answer on a form.
pub fn assert_form(bytes: &[u8], answer: Refused) {
    assert_first(faults::of_form(bytes).first(), answer, bytes);
}

/// Judges an answer on a form and a product to be appended to it, whose faults count
/// if the form has none. A 65th product is refused with 27 and place 0.
pub fn assert_appended(form: &[u8], product: &[u8], answer: Refused) {
    let (of_form, n) = (faults::of_form(form), form.get(1).copied());
    if !of_form.is_empty() {
        return assert_first(of_form.first(), answer, form);
    }
    let of_product = faults::of_product(n.expect("a form has one"), product);
    let is_full = form.ends_with(&[KIND_END, MOST_PRODUCTS as u8, 0]);
    if !of_product.is_empty() || !is_full || answer != (TOO_MANY_PRODUCTS, 0) {
        assert_first(of_product.first(), answer, product);
    }
}

/// Judges the report of a stored table, which prints number and place.
pub fn assert_report(bytes: &[u8], text: &[u8]) {
    let faults = faults::of_table(bytes);
    match faults.first() {
        Some(Fault { refused, why }) => {
            let expected = format!("refused {} at {}\n", refused.refusal, refused.place);
            assert_eq!(text, expected.as_bytes(), "{why}: {bytes:X?}");
        }
        None => {
            let has_place = text.windows(4).any(|part| part == b" at ");
            assert!(!has_place, "{bytes:X?}");
        }
    }
}
