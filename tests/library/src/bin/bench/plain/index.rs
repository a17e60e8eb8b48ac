//! The calls that build the index of a form and change it, in plain Rust, in two ways: by
//! the library's algorithm, which goes over the bytes of the form at every point and needs no
//! memory of its own, and with the form decoded once into vectors. The records are
//! changed in place. Follows document 02, No. 5.

use super::read_table::Refused;
use glospruma::{MAX_VARIABLES, NO_PRODUCT};
use library::{Indexed, PointRecord};

/// Most products of a form.
const MOST_PRODUCTS: usize = 64;

/// A factor: constant and mask.
type Factor = (u8, u16);

/// A product: its factors.
type Product = Vec<Factor>;

/// How the products are tried at a point.
#[derive(Clone, Copy, PartialEq, Eq)]
pub enum Way {
    /// From the bytes, as the library does.
    Bytes,
    /// From the decoded form.
    Decoded,
    /// From the decoded form, and without the test for 17: the list is relied on.
    Untested,
}

/// A form that was read.
struct Form {
    variables: usize,
    products: Vec<Product>,
    /// Where the last product begins.
    last: usize,
}

/// Appends the factor at the front of some bytes to a product, and gives the rest;
/// `place` is that of its kind, and `length` that of the whole input.
fn read_factor<'a>(
    n: usize,
    bytes: &'a [u8],
    (place, length): (usize, usize),
    product: &mut Product,
) -> Result<&'a [u8], Refused> {
    let [_, constant, low, high, rest @ ..] = bytes else {
        return Err((21, length));
    };
    let mask = u16::from_le_bytes([*low, *high]);
    if *constant > 1 || mask == 0 || usize::from(mask) >= 1 << n {
        return Err((23, place + 1));
    }
    let lowest = |mask: u16| mask & mask.wrapping_neg();
    let agrees = |&(_, other): &Factor| lowest(mask) < lowest(other) && mask & lowest(other) == 0;
    if !product.iter().all(agrees) {
        return Err((24, place + 1));
    }
    product.push((*constant, mask));
    Ok(rest)
}

/// Reads a form, or refuses it.
fn read_form(bytes: &[u8]) -> Result<Form, Refused> {
    let length = bytes.len();
    if *bytes.first().ok_or((21, 0))? != 0x4E {
        return Err((20, 0));
    }
    let variables = usize::from(*bytes.get(1).ok_or((21, 1))?);
    if variables == 0 || variables > MAX_VARIABLES {
        return Err((22, 1));
    }
    let (mut products, mut last, mut rest) = (Vec::<Product>::new(), 0, &bytes[2..]);
    loop {
        let place = length - rest.len();
        match (*rest.first().ok_or((21, length))?, products.len()) {
            (0x50, MOST_PRODUCTS) => return Err((27, place)),
            (0x50, _) => {
                products.push(Product::new());
                (last, rest) = (place, &rest[1..]);
            }
            (0x58, 1..) => {
                let product = products.last_mut().expect("there is one");
                rest = read_factor(variables, rest, (place, length), product)?;
            }
            (0x45, count) => {
                check_end(rest, (place, length), count)?;
                return Ok(Form {
                    variables,
                    products,
                    last,
                });
            }
            _ => return Err((20, place)),
        }
    }
}

/// Tests the last record of a form.
fn check_end(
    bytes: &[u8],
    (place, length): (usize, usize),
    products: usize,
) -> Result<(), Refused> {
    match bytes {
        [_, low, high, ..] if usize::from(u16::from_le_bytes([*low, *high])) != products => {
            Err((25, place + 1))
        }
        [_, _, _] => Ok(()),
        [_, _, _, ..] => Err((26, place + 3)),
        _ => Err((21, length)),
    }
}

/// Reads a product for a form of n variables, or refuses it.
fn read_product(n: usize, bytes: &[u8]) -> Result<Product, Refused> {
    let length = bytes.len();
    if *bytes.first().ok_or((21, 0))? != 0x50 {
        return Err((20, 0));
    }
    let (mut product, mut rest) = (Product::new(), &bytes[1..]);
    while let Some(kind) = rest.first() {
        let place = length - rest.len();
        if *kind != 0x58 {
            return Err((20, place));
        }
        rest = read_factor(n, rest, (place, length), &mut product)?;
    }
    Ok(product)
}

/// Whether a product holds a point.
fn holds(product: &Product, point: u16) -> bool {
    let is_true = |&(constant, mask): &Factor| (mask & point).count_ones() as u8 % 2 == constant;
    product.iter().all(is_true)
}

/// Counts a product of this number in.
fn count_in(record: &mut PointRecord, number: u16) {
    if record.count == 0 {
        record.first = number;
    }
    record.count += 1;
}

/// The record of a point by the decoded products.
fn decoded_record(products: &[Product], point: u16) -> PointRecord {
    let mut record = PointRecord::default();
    for (number, product) in (0..).zip(products) {
        if holds(product, point) {
            count_in(&mut record, number);
        }
    }
    record
}

/// Whether the factors at the front of some bytes hold a point, and the bytes after
/// them.
fn walked_factors(bytes: &[u8], point: u16) -> (bool, &[u8]) {
    let (mut holds, mut rest) = (true, bytes);
    while let [0x58, constant, low, high, after @ ..] = rest {
        let mask = u16::from_le_bytes([*low, *high]);
        holds = holds && (mask & point).count_ones() as u8 % 2 == *constant;
        rest = after;
    }
    (holds, rest)
}

/// The record of a point by the bytes of a form.
fn walked_record(bytes: &[u8], point: u16) -> PointRecord {
    let (mut record, mut number, mut rest) = (PointRecord::default(), 0, &bytes[2..]);
    while let [0x50, product @ ..] = rest {
        let (holds, after) = walked_factors(product, point);
        if holds {
            count_in(&mut record, number);
        }
        (number, rest) = (number + 1, after);
    }
    record
}

/// The front of a list that has enough records, or refusal 7.
fn front(n: usize, list: &mut [PointRecord]) -> Result<&mut [PointRecord], Refused> {
    list.get_mut(..1 << n).ok_or((7, 0))
}

/// Refusal 17, unless the records are those of the form.
fn check_records(
    way: Way,
    bytes: &[u8],
    products: &[Product],
    records: &[PointRecord],
) -> Result<(), Refused> {
    let mut numbered = (0..).zip(records);
    let same = match way {
        Way::Bytes => numbered.all(|(point, found)| walked_record(bytes, point) == *found),
        Way::Decoded => numbered.all(|(point, found)| decoded_record(products, point) == *found),
        Way::Untested => true,
    };
    same.then_some(()).ok_or((17, 0))
}

/// Changes the records of the points of a product, which is given by its factors' bytes
/// and decoded.
fn change_records(
    way: Way,
    (bytes, product): (&[u8], &Product),
    records: &mut [PointRecord],
    change: impl Fn(&mut PointRecord),
) {
    let holds = |point| match way {
        Way::Bytes => walked_factors(bytes, point).0,
        _ => holds(product, point),
    };
    for (point, record) in (0..).zip(records) {
        if holds(point) {
            change(record);
        }
    }
}

/// Writes the parts of a form and its end to the room; its length, or refusal 7.
fn write(parts: [&[u8]; 2], products: usize, room: &mut [u8]) -> Result<usize, Refused> {
    let length = parts[0].len() + parts[1].len() + 3;
    let room = room.get_mut(..length).ok_or((7, 0))?;
    let (first, rest) = room.split_at_mut(parts[0].len());
    let (second, end) = rest.split_at_mut(parts[1].len());
    first.copy_from_slice(parts[0]);
    second.copy_from_slice(parts[1]);
    end.copy_from_slice(&[0x45, products as u8, 0]);
    Ok(length)
}

/// The numbers of an answer.
fn numbers(answer: Result<Indexed, Refused>) -> Indexed {
    answer.unwrap_or_else(|(refusal, place)| Indexed {
        refusal,
        place,
        ..Indexed::default()
    })
}

/// The numbers of an accepted call.
fn accepted(variables: usize, length: usize, products: usize) -> Indexed {
    Indexed {
        variables,
        length,
        products,
        ..Indexed::default()
    }
}

fn try_build(way: Way, bytes: &[u8], list: &mut [PointRecord]) -> Result<Indexed, Refused> {
    let form = read_form(bytes)?;
    let records = front(form.variables, list)?;
    for (point, entry) in (0..).zip(records) {
        *entry = match way {
            Way::Bytes => walked_record(bytes, point),
            _ => decoded_record(&form.products, point),
        };
    }
    Ok(accepted(form.variables, bytes.len(), form.products.len()))
}

/// The call that builds an index.
pub fn index_build(way: Way, form: &[u8], list: &mut [PointRecord]) -> Indexed {
    numbers(try_build(way, form, list))
}

fn try_append(
    way: Way,
    bytes: &[u8],
    product_bytes: &[u8],
    list: &mut [PointRecord],
    room: &mut [u8],
) -> Result<Indexed, Refused> {
    let form = read_form(bytes)?;
    let product = read_product(form.variables, product_bytes)?;
    let records = front(form.variables, list)?;
    check_records(way, bytes, &form.products, records)?;
    let number = form.products.len();
    if number == MOST_PRODUCTS {
        return Err((27, 0));
    }
    let before = &bytes[..bytes.len() - 3];
    let length = write([before, product_bytes], number + 1, room)?;
    change_records(way, (&product_bytes[1..], &product), records, |record| {
        count_in(record, number as u16);
    });
    Ok(accepted(form.variables, length, number + 1))
}

/// The call that appends a product.
pub fn index_append(
    way: Way,
    form: &[u8],
    product: &[u8],
    list: &mut [PointRecord],
    room: &mut [u8],
) -> Indexed {
    numbers(try_append(way, form, product, list, room))
}

fn try_remove(
    way: Way,
    bytes: &[u8],
    list: &mut [PointRecord],
    room: &mut [u8],
) -> Result<Indexed, Refused> {
    let form = read_form(bytes)?;
    let records = front(form.variables, list)?;
    check_records(way, bytes, &form.products, records)?;
    let Some((product, left)) = form.products.split_last() else {
        return Err((12, 0));
    };
    let length = write([&bytes[..form.last], &[]], left.len(), room)?;
    let factors = &bytes[form.last + 1..];
    change_records(way, (factors, product), records, |record| {
        record.count -= 1;
        if record.count == 0 {
            record.first = NO_PRODUCT;
        }
    });
    Ok(accepted(form.variables, length, left.len()))
}

/// The call that takes the last product away.
pub fn index_remove(way: Way, form: &[u8], list: &mut [PointRecord], room: &mut [u8]) -> Indexed {
    numbers(try_remove(way, form, list, room))
}
