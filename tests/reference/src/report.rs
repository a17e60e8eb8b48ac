//! The text of the printed report, from the bytes of a stored table.
//! Follows document 01, section "The printed report", and document 02: No. 3, a
//! refusal is printed with its place, if it has one; No. 4, the degree's line ends in
//! `simple` where free points are completed by the rule of document 01.

use crate::completion;
use crate::form::{self, Factor};
use crate::refusal::Refused;
use crate::space;
use crate::table;

/// The words of a list with one blank between them, or `-` for an empty list.
fn words<T: ToString>(list: &[T]) -> String {
    if list.is_empty() {
        return "-".to_string();
    }
    let words: Vec<String> = list.iter().map(|item| item.to_string()).collect();
    words.join(" ")
}

/// The variables of a mask in index order with `joint` between them.
fn variables(n: usize, mask: u16, joint: &str) -> String {
    let indices = space::variables_of(n, mask);
    let names: Vec<String> = indices.iter().map(|index| format!("x{index}")).collect();
    names.join(joint)
}

/// The line of a product.
fn product_line(n: usize, product: &[Factor]) -> String {
    let mut line = "product".to_string();
    if product.is_empty() {
        line.push_str(" 1");
    }
    for factor in product {
        let sum = variables(n, factor.mask, "+");
        line.push_str(&format!(" {sum}={}", factor.constant));
    }
    line
}

/// The lines below the counts, for an accepted table.
fn function_lines(n: usize, on: &[u16], free: &[u16]) -> Vec<String> {
    let (points, degree, _, _) = completion::complete(n, on, free);
    let basis = space::linear_space(n, &points);
    let canonical = space::canonical_variables(n, &basis);
    let simple = if completion::is_simple(n, free) {
        " simple"
    } else {
        ""
    };
    let mut lines = vec![
        format!("degree {degree}{simple}"),
        format!("canonical {}", words(&canonical)),
    ];
    for (place, mask) in space::equations(n, &basis).into_iter().enumerate() {
        let sum = variables(n, mask, " + ");
        lines.push(format!("y{} = {sum}", place + 1));
    }
    let restriction = space::restriction(n, &points, &basis);
    lines.push(format!("restriction {}", words(&restriction)));
    match form::write_form(n, on, free) {
        Ok(form) => {
            let products = form.products.iter();
            lines.extend(products.map(|product| product_line(n, product)));
        }
        Err(number) => lines.push(Refused::from(number).to_string()),
    }
    lines
}

/// The whole output for one standard input.
pub fn report(bytes: &[u8]) -> String {
    let (n, on, free) = match table::read_stored(bytes) {
        Ok(table) => table,
        Err(refused) => return format!("{refused}\n"),
    };
    let mut lines = vec![
        format!("variables {n}"),
        format!("on {} free {}", on.len(), free.len()),
    ];
    lines.extend(function_lines(n, &on, &free));
    lines.join("\n") + "\n"
}
