//! An index of who covers what: a record for each point of a form, and the form with
//! a product appended or its last one taken away. An index is always built afresh
//! here. Follows document 02, No. 5, and for the bytes of a product No. 3.

use crate::form::{self, Form, Product, MOST_PRODUCTS};
use crate::refusal::{self, Refused};
use crate::walk;

/// The first product of a point that no product holds.
pub const NO_PRODUCT: u16 = 65_535;

/// The record of a point: the number of products that hold it, and the first such
/// product, from 0.
#[derive(Clone, Copy, Debug, PartialEq, Eq)]
pub struct Record {
    pub count: u16,
    pub first: u16,
}

/// The numbers of the products that hold a point, rising.
fn holding(form: &Form, point: u16) -> Vec<u16> {
    let numbered = (0..).zip(&form.products);
    let holding = numbered.filter(|(_, product)| form::product_holds(product, point));
    holding.map(|(number, _)| number).collect()
}

/// The record of a point.
pub fn record(form: &Form, point: u16) -> Record {
    let holding = holding(form, point);
    Record {
        count: holding.len() as u16,
        first: holding.first().copied().unwrap_or(NO_PRODUCT),
    }
}

/// The records of all points of a form.
pub fn records(form: &Form) -> Vec<Record> {
    let points = 0..1u16 << form.variables;
    points.map(|point| record(form, point)).collect()
}

/// The number of points of a product.
pub fn size(variables: usize, product: &Product) -> usize {
    let points = 0..1u16 << variables;
    points
        .filter(|&point| form::product_holds(product, point))
        .count()
}

/// Reads a product for a form of so many variables: 50 and its factors, up to the end
/// of the bytes. The product, or the first fault and its place from the 50: refusals
/// 20, 21, 23 and 24.
pub fn read_product(variables: usize, bytes: &[u8]) -> Result<Product, Refused> {
    if walk::kind_at(bytes, 0)? != walk::KIND_PRODUCT {
        return Err(Refused::at(refusal::WRONG_KIND, 0));
    }
    let mut product = Product::new();
    let mut place = 1;
    while place < bytes.len() {
        if bytes[place] != walk::KIND_FACTOR {
            return Err(Refused::at(refusal::WRONG_KIND, place));
        }
        form::walk_factor(bytes, place, variables, &mut product)?;
        place += 4;
    }
    Ok(product)
}

/// Refusal 7 if a list has fewer records than the form has points, and 17 if the
/// first ones aren't those of the form.
fn check_list(form: &Form, list: &[Record]) -> Result<(), u8> {
    check_length(form, list)?;
    let records = records(form);
    if list[..records.len()] != records {
        return Err(refusal::OTHER_RECORDS);
    }
    Ok(())
}

/// Refusal 7 if a list has fewer records than the form has points.
fn check_length(form: &Form, list: &[Record]) -> Result<(), u8> {
    if list.len() < 1 << form.variables {
        return Err(refusal::SHORT_ROOM);
    }
    Ok(())
}

/// The form whose index a list is to hold.
pub fn build(bytes: &[u8], list: &[Record]) -> Result<Form, Refused> {
    let form = form::read_form(bytes)?;
    check_length(&form, list)?;
    Ok(form)
}

/// A form with one product more, if a list holds its index.
pub fn append(bytes: &[u8], product: &[u8], list: &[Record]) -> Result<Form, Refused> {
    let mut form = form::read_form(bytes)?;
    let product = read_product(form.variables, product)?;
    check_list(&form, list)?;
    if form.products.len() == MOST_PRODUCTS {
        return Err(Refused::at(refusal::TOO_MANY_PRODUCTS, 0));
    }
    form.products.push(product);
    Ok(form)
}

/// A form without its last product, if a list holds its index.
pub fn remove(bytes: &[u8], list: &[Record]) -> Result<Form, Refused> {
    let mut form = form::read_form(bytes)?;
    check_list(&form, list)?;
    if form.products.pop().is_none() {
        return Err(refusal::EMPTY_FORM.into());
    }
    Ok(form)
}
