//! The report call in plain Rust. Follows document 01, section "The printed
//! report", and document 02, No. 3 and No. 4.

use super::analyse::{restriction, variables};
use super::basis::leads;
use super::complete::completed;
use super::products::{products, Product};
use super::read_table::{read_table, Refused};
use super::text;
use super::vector_sets;
use library::{Report, ShortList};

/// Room for most texts from the start.
const USUAL_LENGTH: usize = 4096;

/// The lines of the reduction equations.
fn equation_lines(lines: &mut Vec<u8>, n: usize, equations: &ShortList) {
    for (place, &mask) in equations.values[..equations.len].iter().enumerate() {
        text::number(lines, b"y", place + 1);
        lines.extend_from_slice(b" = ");
        text::variables(lines, b" + ", n, mask);
        lines.push(b'\n');
    }
}

/// The line of a product.
fn product_line(lines: &mut Vec<u8>, n: usize, Product { constants, masks }: &Product) {
    lines.extend_from_slice(b"product");
    if masks.len == 0 {
        lines.extend_from_slice(b" 1");
    }
    for place in 0..masks.len {
        lines.push(b' ');
        text::variables(lines, b"+", n, masks.values[place]);
        text::number(lines, b"=", usize::from(constants.values[place]));
    }
    lines.push(b'\n');
}

/// The lines for an accepted table, or number and place for a refused one.
fn try_lines(bytes: &[u8], lines: &mut Vec<u8>) -> Result<(), Refused> {
    let without_place = |refusal| (refusal, 0);
    let (n, on, free) = read_table(bytes)?;
    let completed = completed(n, &on, &free).map_err(without_place)?;
    let leads = leads(&completed.basis);
    let (canonical, equations) = variables(n, &completed.basis, leads);
    text::number(lines, b"variables ", n);
    text::number(lines, b"\non ", on.len());
    text::number(lines, b" free ", free.len());
    text::number(lines, b"\ndegree ", completed.basis.len);
    if n > vector_sets::MOST_VARIABLES && !free.is_empty() {
        lines.extend_from_slice(b" simple");
    }
    let indices = canonical.values[..canonical.len].iter().copied();
    text::numbers_line(lines, b"\ncanonical", indices);
    equation_lines(lines, n, &equations);
    let points = restriction(n, &completed.flags, leads);
    text::numbers_line(lines, b"restriction", points);
    for product in products(n, &completed, &equations).map_err(without_place)? {
        product_line(lines, n, &product);
    }
    Ok(())
}

/// The call.
pub fn report(bytes: &[u8], room: &mut [u8]) -> Report {
    let mut lines = Vec::with_capacity(USUAL_LENGTH);
    if let Err((refusal, place)) = try_lines(bytes, &mut lines) {
        text::number(&mut lines, b"refused ", usize::from(refusal));
        if refusal >= 20 {
            text::number(&mut lines, b" at ", place);
        }
        lines.push(b'\n');
    }
    let length = lines.len();
    match room.get_mut(..length) {
        Some(front) => front.copy_from_slice(&lines),
        None => {
            return Report {
                refusal: 7,
                length: 0,
            }
        }
    }
    Report { refusal: 0, length }
}
