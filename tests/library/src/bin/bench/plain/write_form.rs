//! The call that writes the form of a table in plain Rust. Follows document 01,
//! section "The written form".

use super::analyse::variables;
use super::basis::leads;
use super::complete::completed;
use super::products::{products, Product};
use library::FormWritten;

/// Number of bytes of a form.
fn form_length(products: &[Product]) -> usize {
    let lengths = products.iter().map(|product| 1 + 4 * product.masks.len);
    2 + lengths.sum::<usize>() + 3
}

/// Writes a form to room of just its length.
fn write(n: usize, products: &[Product], room: &mut [u8]) {
    room[..2].copy_from_slice(&[0x4E, n as u8]);
    let mut at = 2;
    for Product { constants, masks } in products {
        room[at] = 0x50;
        at += 1;
        for place in 0..masks.len {
            let [low, high] = masks.values[place].to_le_bytes();
            let constant = constants.values[place] as u8;
            room[at..at + 4].copy_from_slice(&[0x58, constant, low, high]);
            at += 4;
        }
    }
    let [low, high] = (products.len() as u16).to_le_bytes();
    room[at..].copy_from_slice(&[0x45, low, high]);
}

fn try_write_form(n: usize, on: &[u16], free: &[u16], room: &mut [u8]) -> Result<FormWritten, u8> {
    let completed = completed(n, on, free)?;
    let (_, equations) = variables(n, &completed.basis, leads(&completed.basis));
    let products = products(n, &completed, &equations)?;
    let length = form_length(&products);
    write(n, &products, room.get_mut(..length).ok_or(7)?);
    Ok(FormWritten {
        refusal: 0,
        length,
        products: products.len(),
    })
}

/// The call.
pub fn write_form(n: usize, on: &[u16], free: &[u16], room: &mut [u8]) -> FormWritten {
    try_write_form(n, on, free, room).unwrap_or_else(|refusal| FormWritten {
        refusal,
        ..FormWritten::default()
    })
}
