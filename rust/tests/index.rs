//! The index of a form through the safe calls: built, looked up, changed by products
//! that are appended and taken away, and refused, after which lent memory is as it
//! was. Every list and room is as long as its answer, or a little longer, so that a
//! tool that watches memory sees each access beyond. Follows document 02, No. 5.

use glospruma::{
    form_points, index_append, index_build, index_lookup, index_remove, raw, Holders, PointRecord,
    Refusal, Refused, FORM_ROOM, MAX_POINTS, MAX_VARIABLES, NO_PRODUCT,
};

/// What a lent list holds before a call.
const PAINT: PointRecord = PointRecord { count: 9, first: 9 };

/// P5's form: x2; or x1 and x2 differ and an even number of x1, x3 and x4 is set.
const P5: [u8; 19] = [
    0x4E, 4, 0x50, 0x58, 1, 4, 0, 0x50, 0x58, 1, 12, 0, 0x58, 0, 11, 0, 0x45, 2, 0,
];

/// The form of n variables without products.
fn empty(n: usize) -> [u8; 5] {
    [0x4E, n as u8, 0x45, 0, 0]
}

/// The product of n variables that holds one point alone.
fn product_at(n: usize, point: u16) -> Vec<u8> {
    let mut bytes = vec![0x50];
    for place in (0..n).rev() {
        let [low, high] = (1u16 << place).to_le_bytes();
        bytes.extend([0x58, (point >> place & 1) as u8, low, high]);
    }
    bytes
}

/// A list with the index of a form, as long as it has points.
fn list_of(form: &[u8]) -> Vec<PointRecord> {
    let mut list = vec![PAINT; 1 << form[1]];
    index_build(form, &mut list).expect("accepted");
    list
}

/// The products that hold a point, by the first one and their number.
fn held(first: usize, count: usize) -> Option<Holders> {
    Some(Holders { first, count })
}

#[test]
fn p5_looked_up() {
    let mut list = vec![PAINT; 17];
    let index = index_build(&P5, &mut list).expect("accepted");
    assert_eq!((index.variables, index.products), (4, 2));
    assert_eq!((index.form, index.records.len()), (&P5[..], 16));
    let expected = [
        (0b0100, held(0, 2)),
        (0b0101, held(0, 1)),
        (0b1001, held(1, 1)),
        (0b1011, None),
        (0b1111, held(0, 1)),
    ];
    for (point, holders) in expected {
        assert_eq!(index.lookup(point), Ok(holders), "{point:b}");
    }
    for point in [16, 17, u16::MAX] {
        assert_eq!(index.lookup(point), Err(Refusal::Point));
    }
    let mut room = vec![9; 10];
    let on = form_points(&P5, &mut room).expect("accepted").points;
    let found = (0..16).filter(|&point| index.lookup(point) != Ok(None));
    assert!(found.eq(on.iter().copied()));
    assert_eq!(list[16], PAINT);
}

#[test]
fn a_lookup_in_any_list() {
    let list = list_of(&P5);
    assert_eq!(index_lookup(4, &list, 9), Ok(held(1, 1)));
    for n in [0, MAX_VARIABLES + 1, usize::MAX] {
        assert_eq!(index_lookup(n, &list, 16), Err(Refusal::Variables));
    }
    assert_eq!(index_lookup(4, &list[..15], 16), Err(Refusal::Point));
    assert_eq!(index_lookup(4, &list[..15], 3), Err(Refusal::Room));
    assert_eq!(index_lookup(4, &[], 3), Err(Refusal::Room));
    assert_eq!(index_lookup(3, &list, 7), Ok(held(0, 2)));
    assert_eq!(index_lookup(3, &list, 8), Err(Refusal::Point));
    let none = vec![PointRecord::default(); MAX_POINTS];
    assert_eq!(index_lookup(12, &none, 4095), Ok(None));
    assert_eq!(index_lookup(12, &none, 4096), Err(Refusal::Point));
}

#[test]
fn records() {
    let none = PointRecord::default();
    assert_eq!((none.count, none.first), (0, NO_PRODUCT));
    assert_eq!(none.holders(), None);
    let record = PointRecord {
        count: 64,
        first: 63,
    };
    assert_eq!(record.holders(), held(63, 64));
}

/// A product for 11 alone is appended and taken away: no other record changes.
#[test]
fn p5_changed_and_changed_back() {
    let before = list_of(&P5);
    let mut list = [&before[..], &[PAINT]].concat();
    let product = product_at(4, 0b1011);
    let mut room = vec![9; P5.len() + product.len() + 1];
    let index = index_append(&P5, &product, &mut list, &mut room).expect("accepted");
    assert_eq!((index.variables, index.products), (4, 3));
    let expected = [&P5[..16], &product, &[0x45, 3, 0]].concat();
    assert_eq!(index.form, expected);
    assert_eq!(index.lookup(0b1011), Ok(held(2, 1)));
    let others = (0..16).filter(|&point| point != 0b1011);
    for point in others {
        assert_eq!(index.records[point], before[point]);
    }
    assert_eq!(room.last(), Some(&9));
    let mut back = vec![9; P5.len()];
    let index = index_remove(&expected, &mut list, &mut back).expect("accepted");
    assert_eq!((index.form, index.products), (&P5[..], 2));
    assert_eq!(list, [&before[..], &[PAINT]].concat());
}

/// From no product to 64 of them and back, in two rooms by turns; each time the list
/// is that of an index built afresh.
#[test]
fn sixty_four_products_there_and_back() {
    let (mut form, mut list) = (empty(6).to_vec(), list_of(&empty(6)));
    for number in 0..64u16 {
        let product = product_at(6, number.wrapping_mul(37) % 64);
        let mut room = vec![9; FORM_ROOM];
        let index = index_append(&form, &product, &mut list, &mut room).expect("accepted");
        assert_eq!(index.products, usize::from(number) + 1);
        form = index.form.to_vec();
        assert_eq!(list, list_of(&form));
    }
    assert!(list.iter().all(|record| record.count == 1));
    let mut room = vec![9; FORM_ROOM];
    let full = index_append(&form, &[0x50], &mut list, &mut room);
    let too_many = Refused {
        refusal: Refusal::TooManyProducts,
        place: 0,
    };
    assert_eq!(full, Err(too_many));
    for number in (0..64).rev() {
        let index = index_remove(&form, &mut list, &mut room).expect("accepted");
        assert_eq!(index.products, number);
        form = index.form.to_vec();
        assert_eq!(list, list_of(&form));
    }
    assert_eq!(form, empty(6));
    let none = index_remove(&form, &mut list, &mut room);
    assert_eq!(none, Err(Refusal::EmptyForm.into()));
}

/// Both changes are refused so, every other number is 0, and lent memory is as it was.
fn assert_refused(
    form: &[u8],
    product: Option<&[u8]>,
    list: &[PointRecord],
    length: usize,
    refused: Refused,
) {
    let (mut lent, mut room) = (list.to_vec(), vec![9; length]);
    let numbers = raw::Indexed {
        refusal: refused.refusal.into(),
        place: refused.place,
        ..raw::Indexed::default()
    };
    match product {
        Some(product) => {
            let safe = index_append(form, product, &mut lent, &mut room);
            assert_eq!(safe, Err(refused));
            let raw = raw::index_append(form, product, &mut lent, &mut room);
            assert_eq!(raw, numbers);
        }
        None => {
            assert_eq!(index_remove(form, &mut lent, &mut room), Err(refused));
            assert_eq!(raw::index_remove(form, &mut lent, &mut room), numbers);
        }
    }
    assert_eq!((&lent[..], room), (list, vec![9; length]));
}

#[test]
fn refusals_of_appends() {
    let list = list_of(&P5);
    let mut other = list.clone();
    other[15].first = 1;
    let refused = |refusal, place| Refused { refusal, place };
    let cut = refused(Refusal::BytesMissing, 18);
    assert_refused(&P5[..18], Some(&[]), &[], 0, cut);
    let products: [(&[u8], Refusal, usize); 6] = [
        (&[], Refusal::BytesMissing, 0),
        (&[0x58, 1, 1, 0], Refusal::WrongKind, 0),
        (&[0x50, 0x45, 1, 0], Refusal::WrongKind, 1),
        (&[0x50, 0x58, 1, 1], Refusal::BytesMissing, 4),
        (&[0x50, 0x58, 1, 16, 0], Refusal::WrongFactor, 2),
        (
            &[0x50, 0x58, 1, 1, 0, 0x58, 1, 2, 0],
            Refusal::NotCanonical,
            6,
        ),
    ];
    for (product, refusal, place) in products {
        assert_refused(&P5, Some(product), &list, 40, refused(refusal, place));
        assert_refused(&P5, Some(product), &[], 0, refused(refusal, place));
    }
    let (everywhere, room) = (Some(&[0x50][..]), Refusal::Room.into());
    assert_refused(&P5, everywhere, &other[..15], 0, room);
    assert_refused(&P5, everywhere, &other, 0, Refusal::Records.into());
    assert_refused(&P5, everywhere, &list, 19, room);
}

#[test]
fn refusals_of_removals() {
    let list = list_of(&P5);
    let mut other = list.clone();
    other[0].count = 1;
    let refused = |refusal, place| Refused { refusal, place };
    let cut = refused(Refusal::BytesMissing, 18);
    assert_refused(&P5[..18], None, &[], 0, cut);
    assert_refused(&P5, None, &other[..15], 0, Refusal::Room.into());
    assert_refused(&P5, None, &other, 0, Refusal::Records.into());
    assert_refused(&P5, None, &list, 9, Refusal::Room.into());
    let none = list_of(&empty(4));
    assert_refused(&empty(4), None, &none, 0, Refusal::EmptyForm.into());
    assert_refused(&empty(4), None, &list, 0, Refusal::Records.into());
}

#[test]
fn refusals_of_builds() {
    let wide = [0x4E, 13, 0x45, 0, 0];
    let variables = Refused {
        refusal: Refusal::WrongVariables,
        place: 1,
    };
    for (form, refused) in [(&wide[..], variables), (&P5, Refusal::Room.into())] {
        let mut list = vec![PAINT; 15];
        assert_eq!(index_build(form, &mut list), Err(refused));
        assert_eq!(list, [PAINT; 15]);
    }
}

/// The largest list and the longest form.
#[test]
fn the_longest_form() {
    let n = MAX_VARIABLES;
    let last = product_at(n, (MAX_POINTS - 1) as u16);
    let products = [&[0x4E, n as u8][..], &last.repeat(63), &[0x45, 63, 0]].concat();
    let mut list = vec![PAINT; MAX_POINTS];
    index_build(&products, &mut list).expect("accepted");
    let mut room = vec![9; FORM_ROOM];
    let index = index_append(&products, &last, &mut list, &mut room).expect("accepted");
    assert_eq!((index.form.len(), index.products), (FORM_ROOM, 64));
    assert_eq!(index.lookup(4095), Ok(held(0, 64)));
    assert_eq!(index.lookup(4094), Ok(None));
}
