//! Forms: the reader, the writer of what was read, and the points of a form.
//! Follows document 01, section "The written form", and document 02, No. 3. The form
//! written for a table is made in module `cover` and can be called from here too.

pub use crate::cover::write_form;
use crate::refusal::{self, Refused};
use crate::table;
use crate::walk;

/// Most products of a form.
pub const MOST_PRODUCTS: usize = 64;

/// A factor: true when the number of mask bits set in the point is odd for
/// constant 1, even for constant 0.
#[derive(Clone, Copy, Debug, PartialEq, Eq)]
pub struct Factor {
    pub constant: u8,
    pub mask: u16,
}

/// A product: all its factors must be true.
pub type Product = Vec<Factor>;

/// A form: one of its products must be true.
#[derive(Clone, Debug, PartialEq, Eq)]
pub struct Form {
    pub variables: usize,
    pub products: Vec<Product>,
}

/// The parity of the bits that a mask and a point have in common, one by one.
pub fn parity(mask: u16, point: u16) -> u8 {
    let common = mask & point;
    (0..16).fold(0, |parity, place| parity ^ (common >> place & 1) as u8)
}

/// Whether every factor of a product is true at a point.
pub fn product_holds(product: &[Factor], point: u16) -> bool {
    let mut factors = product.iter();
    factors.all(|factor| parity(factor.mask, point) == factor.constant)
}

/// Whether some product of a form is true at a point.
pub fn form_holds(form: &Form, point: u16) -> bool {
    let mut products = form.products.iter();
    products.any(|product| product_holds(product, point))
}

/// The points of a form, rising.
pub fn points(form: &Form) -> Vec<u16> {
    let all = 0..1u16 << form.variables;
    all.filter(|&point| form_holds(form, point)).collect()
}

/// The lowest set bit of a mask, as a number with that bit alone.
pub fn lowest_bit(mask: u16) -> u16 {
    let mut bits = (0..16).map(|place| 1u16 << place);
    bits.find(|bit| mask & bit != 0).unwrap_or(0)
}

/// Whether a product is canonical, by the definition: the lowest bit of each
/// mask occurs in no other mask, and these lowest bits fall.
pub fn is_canonical(product: &[Factor]) -> bool {
    let masks: Vec<u16> = product.iter().map(|factor| factor.mask).collect();
    let mut separate = true;
    for (place, &mask) in masks.iter().enumerate() {
        for (other_place, &other) in masks.iter().enumerate() {
            separate &= place == other_place || other & lowest_bit(mask) == 0;
        }
    }
    let mut pairs = masks.windows(2);
    separate && pairs.all(|pair| lowest_bit(pair[0]) > lowest_bit(pair[1]))
}

/// The factor of a body of three bytes, if its constant and mask are in range.
fn factor_of(variables: usize, body: &[u8]) -> Option<Factor> {
    let (constant, mask) = (body[0], walk::number(&body[1..]));
    let in_range = constant <= 1 && mask != 0 && usize::from(mask) < 1 << variables;
    in_range.then_some(Factor { constant, mask })
}

/// Reads the factor whose kind byte stands at `place` into a product.
pub fn walk_factor(
    bytes: &[u8],
    place: usize,
    variables: usize,
    product: &mut Product,
) -> Result<(), Refused> {
    let body = walk::body_at(bytes, place + 1, 3)?;
    let Some(factor) = factor_of(variables, body) else {
        return Err(Refused::at(refusal::WRONG_FACTOR, place + 1));
    };
    product.push(factor);
    if !is_canonical(product) {
        return Err(Refused::at(refusal::NOT_CANONICAL, place + 1));
    }
    Ok(())
}

/// Reads a form by a walk from the left: the form, or the first fault and its place,
/// refusals 20 to 27.
pub fn read_form(bytes: &[u8]) -> Result<Form, Refused> {
    let variables = usize::from(walk::first_record(bytes)?);
    if !table::is_variable_count(variables) {
        return Err(Refused::at(refusal::WRONG_VARIABLES, 1));
    }
    let products = Vec::new();
    let mut form = Form {
        variables,
        products,
    };
    let mut place = 2;
    loop {
        match walk::kind_at(bytes, place)? {
            walk::KIND_PRODUCT => {
                if form.products.len() == MOST_PRODUCTS {
                    return Err(Refused::at(refusal::TOO_MANY_PRODUCTS, place));
                }
                form.products.push(Vec::new());
                place += 1;
            }
            walk::KIND_FACTOR => {
                let Some(product) = form.products.last_mut() else {
                    return Err(Refused::at(refusal::WRONG_KIND, place));
                };
                walk_factor(bytes, place, variables, product)?;
                place += 4;
            }
            walk::KIND_END => {
                walk::last_record(bytes, place, form.products.len())?;
                return Ok(form);
            }
            _ => return Err(Refused::at(refusal::WRONG_KIND, place)),
        }
    }
}

/// The bytes of a form.
pub fn encode(form: &Form) -> Vec<u8> {
    let mut bytes = vec![walk::KIND_VARIABLES, form.variables as u8];
    for product in &form.products {
        bytes.push(walk::KIND_PRODUCT);
        for factor in product {
            bytes.extend([walk::KIND_FACTOR, factor.constant]);
            bytes.extend(walk::number_bytes(factor.mask));
        }
    }
    bytes.push(walk::KIND_END);
    bytes.extend(walk::number_bytes(form.products.len() as u16));
    bytes
}
