//! A second judge of bytes, which shares with the walk of `table` and `form` no
//! more than the kinds of record. It splits bytes into records by kind and length
//! alone, lists every fault by the rule of each number, with a sentence that says
//! why, and only then takes the first place, and of two faults at one byte the
//! smaller number. Follows document 02, No. 3 and for a product alone No. 5, and
//! document 01, section "The written form".

use crate::refusal::{self, Refused};
use crate::walk::{KIND_END, KIND_FACTOR, KIND_FREE, KIND_ON, KIND_PRODUCT, KIND_VARIABLES};

/// Most bytes of a stored table.
const MOST_BYTES: usize = 12_293;

/// Most variables of a form.
const MOST_VARIABLES: u8 = 12;

/// Most products of a form.
const MOST_PRODUCTS: usize = 64;

/// A fault, and why it is one.
#[derive(Clone, Copy, Debug, PartialEq, Eq)]
pub struct Fault {
    pub refused: Refused,
    pub why: &'static str,
}

/// Where a number's rule is broken, and why.
type Broken = Vec<(usize, &'static str)>;

/// What bytes are read as.
#[derive(Clone, Copy, PartialEq)]
enum Reading {
    Table,
    Form,
    /// A product alone, of a form of so many variables.
    Product(u8),
}

/// A record: where its kind byte stands, its kind, and its body if all of it is
/// there.
struct Record<'a> {
    place: usize,
    kind: u8,
    body: Option<&'a [u8]>,
}

/// Bytes as records, as far as these go.
struct Split<'a> {
    reading: Reading,
    bytes: &'a [u8],
    records: Vec<Record<'a>>,
    /// The place behind the last record.
    end: usize,
}

/// Bytes of the body of a record, by its kind; none for an unknown kind.
fn body_length(kind: u8) -> Option<usize> {
    match kind {
        KIND_PRODUCT => Some(0),
        KIND_VARIABLES => Some(1),
        KIND_ON | KIND_FREE | KIND_END => Some(2),
        KIND_FACTOR => Some(3),
        _ => None,
    }
}

/// Whether a kind is awaited behind some records: not after 45, and in a table not
/// at place 12,293. A product has no 45, so that one is awaited until the bytes end.
fn awaits_kind(reading: Reading, records: &[Record], end: usize) -> bool {
    let is_closed = records.last().is_some_and(|last| last.kind == KIND_END);
    match reading {
        Reading::Table => !is_closed && end < MOST_BYTES,
        Reading::Form => !is_closed,
        Reading::Product(_) => true,
    }
}

/// Splits bytes as long as a kind is awaited, there and known.
fn split(reading: Reading, bytes: &[u8]) -> Split<'_> {
    let (mut records, mut end) = (Vec::new(), 0);
    while awaits_kind(reading, &records, end) && end < bytes.len() {
        let (place, kind) = (end, bytes[end]);
        let Some(length) = body_length(kind) else {
            break;
        };
        end = bytes.len().min(place + 1 + length);
        let body = bytes.get(place + 1..place + 1 + length);
        records.push(Record { place, kind, body });
    }
    Split {
        reading,
        bytes,
        records,
        end,
    }
}

impl<'a> Split<'a> {
    /// The places of the records of a kind, and their bodies if these are there.
    fn of_kind(&self, kind: u8) -> impl Iterator<Item = (usize, Option<&'a [u8]>)> + '_ {
        let of_kind = self
            .records
            .iter()
            .filter(move |record| record.kind == kind);
        of_kind.map(|record| (record.place, record.body))
    }

    /// The places of the whole bodies of the records of a kind, and the bodies.
    fn bodies(&self, kind: u8) -> impl Iterator<Item = (usize, &'a [u8])> + '_ {
        let records = self.of_kind(kind);
        records.filter_map(|(place, body)| Some((place + 1, body?)))
    }

    /// The byte after a first 4E, or the n that a product comes with.
    fn variables(&self) -> Option<u8> {
        if let Reading::Product(variables) = self.reading {
            return Some(variables);
        }
        let mut bodies = self.bodies(KIND_VARIABLES);
        bodies
            .find(|&(place, _)| place == 1)
            .map(|(_, body)| body[0])
    }
}

/// The number of two bytes, the low one first.
fn number(bytes: &[u8]) -> u16 {
    u16::from_le_bytes([bytes[0], bytes[1]])
}

/// 20: a kind that may not stand where it does, and one that is unknown.
fn wrong_kinds(split: &Split) -> Broken {
    let product = split.of_kind(KIND_PRODUCT).next();
    let has_begun = |place| product.is_some_and(|(begin, _)| begin < place);
    let may_stand = |record: &Record| match (record.place, split.reading) {
        (0, Reading::Product(_)) => record.kind == KIND_PRODUCT,
        (_, Reading::Product(_)) => record.kind == KIND_FACTOR,
        (0, _) => record.kind == KIND_VARIABLES,
        (_, Reading::Table) => matches!(record.kind, KIND_ON | KIND_FREE | KIND_END),
        (place, Reading::Form) => match record.kind {
            KIND_FACTOR => has_begun(place),
            kind => matches!(kind, KIND_PRODUCT | KIND_END),
        },
    };
    let misplaced = split.records.iter().filter(|record| !may_stand(record));
    let mut broken: Broken = misplaced
        .map(|record| (record.place, "a record of this kind may not stand here"))
        .collect();
    let Split { records, end, .. } = split;
    if awaits_kind(split.reading, records, *end) && *end < split.bytes.len() {
        broken.push((*end, "no record is of this kind"));
    }
    broken
}

/// 21: the bytes end inside a body, or before a record 45, or of a product there are
/// none.
fn missing_bytes(split: &Split) -> Broken {
    let length = split.bytes.len();
    let last = split.records.last();
    if last.is_some_and(|record| record.body.is_none()) {
        return vec![(length, "the bytes end inside a body")];
    }
    if let Reading::Product(_) = split.reading {
        let empty = (length == 0).then_some((0, "there are no bytes"));
        return empty.into_iter().collect();
    }
    if split.end == length && split.of_kind(KIND_END).next().is_none() {
        return vec![(length, "the bytes end before a record 45")];
    }
    Vec::new()
}

/// 22: the n of a form.
fn wrong_variables(split: &Split) -> Broken {
    match split.variables() {
        Some(0) => vec![(1, "n is 0")],
        Some(n) if n > MOST_VARIABLES => vec![(1, "n is above 12")],
        _ => Vec::new(),
    }
}

/// 23: the constant or the mask of a factor.
fn wrong_factors(split: &Split) -> Broken {
    let bits = split.variables().unwrap_or(0).min(16);
    let why = |constant: u8, mask: u16| {
        if constant > 1 {
            return Some("the constant is above 1");
        }
        if mask == 0 {
            return Some("the mask is 0");
        }
        (u32::from(mask) >> bits != 0).then_some("the mask is 2^n or more")
    };
    let factors = split.bodies(KIND_FACTOR);
    let broken = factors.map(|(place, body)| (place, why(body[0], number(&body[1..]))));
    broken
        .filter_map(|(place, why)| Some((place, why?)))
        .collect()
}

/// Whether two factors of a product agree, by their masks: the lowest bit of the
/// later one is below that of the earlier one, and neither mask has the other's.
fn agree(earlier: u16, later: u16) -> bool {
    let [high, low] = [earlier, later].map(|mask| mask & mask.wrapping_neg());
    low < high && earlier & low == 0 && later & high == 0
}

/// 24: a factor beside those before it in its product.
fn disagreeing_factors(split: &Split) -> Broken {
    let (mut broken, mut masks) = (Broken::new(), Vec::new());
    for record in &split.records {
        match (record.kind, record.body) {
            (KIND_PRODUCT, _) => masks.clear(),
            (KIND_FACTOR, Some(body)) => {
                let mask = number(&body[1..]);
                if !masks.iter().all(|&earlier| agree(earlier, mask)) {
                    broken.push((record.place + 1, "a factor before it doesn't agree"));
                }
                masks.push(mask);
            }
            _ => {}
        }
    }
    broken
}

/// 25: the count of the points, or of the products.
fn wrong_count(split: &Split) -> Broken {
    let is_counted = |record: &&Record| match split.reading {
        Reading::Table => matches!(record.kind, KIND_ON | KIND_FREE),
        _ => record.kind == KIND_PRODUCT,
    };
    let count = split.records.iter().filter(is_counted).count();
    let ends = split.bodies(KIND_END);
    let wrong = ends.filter(|(_, body)| usize::from(number(body)) != count);
    wrong
        .map(|(place, _)| (place, "there aren't so many before it"))
        .collect()
}

/// 26: a byte after a record 45, and in a table one at place 12,293.
fn bytes_after(split: &Split) -> Broken {
    let mut broken = Broken::new();
    let length = split.bytes.len();
    if split.bodies(KIND_END).next().is_some() && split.end < length {
        broken.push((split.end, "a byte stands after the record 45"));
    }
    if split.reading == Reading::Table && length > MOST_BYTES {
        broken.push((MOST_BYTES, "no table has a byte here"));
    }
    broken
}

/// 27: a product after 64 others.
fn more_products(split: &Split) -> Broken {
    let more = split.of_kind(KIND_PRODUCT).skip(MOST_PRODUCTS);
    more.map(|(place, _)| (place, "64 products stand before it"))
        .collect()
}

/// A number's rule.
type Rule = fn(&Split) -> Broken;

/// The rules for tables.
const OF_TABLES: [(u8, Rule); 4] = [
    (refusal::WRONG_KIND, wrong_kinds),
    (refusal::BYTES_MISSING, missing_bytes),
    (refusal::WRONG_COUNT, wrong_count),
    (refusal::BYTES_AFTER, bytes_after),
];

/// The rules for forms.
const OF_FORMS: [(u8, Rule); 8] = [
    (refusal::WRONG_KIND, wrong_kinds),
    (refusal::BYTES_MISSING, missing_bytes),
    (refusal::WRONG_VARIABLES, wrong_variables),
    (refusal::WRONG_FACTOR, wrong_factors),
    (refusal::NOT_CANONICAL, disagreeing_factors),
    (refusal::WRONG_COUNT, wrong_count),
    (refusal::BYTES_AFTER, bytes_after),
    (refusal::TOO_MANY_PRODUCTS, more_products),
];

/// The rules for products alone.
const OF_PRODUCTS: [(u8, Rule); 4] = [
    (refusal::WRONG_KIND, wrong_kinds),
    (refusal::BYTES_MISSING, missing_bytes),
    (refusal::WRONG_FACTOR, wrong_factors),
    (refusal::NOT_CANONICAL, disagreeing_factors),
];

/// Every fault by some rules, from the left, and at one byte the smaller number
/// first.
fn all_faults(split: &Split, rules: &[(u8, Rule)]) -> Vec<Fault> {
    let mut faults = Vec::new();
    for &(refusal, rule) in rules {
        faults.extend(rule(split).into_iter().map(|(place, why)| Fault {
            refused: Refused::at(refusal, place),
            why,
        }));
    }
    faults.sort_by_key(|fault| (fault.refused.place, fault.refused.refusal));
    faults
}

/// Every fault of the layout of a stored table; the first one is to be reported.
pub fn of_table(bytes: &[u8]) -> Vec<Fault> {
    all_faults(&split(Reading::Table, bytes), &OF_TABLES)
}

/// Every fault of a form; the first one is to be reported.
pub fn of_form(bytes: &[u8]) -> Vec<Fault> {
    all_faults(&split(Reading::Form, bytes), &OF_FORMS)
}

/// Every fault of a product alone, of a form of so many variables; the first one is
/// to be reported.
pub fn of_product(variables: u8, bytes: &[u8]) -> Vec<Fault> {
    all_faults(&split(Reading::Product(variables), bytes), &OF_PRODUCTS)
}
