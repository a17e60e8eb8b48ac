//! What is wrong with bytes, and where, through the safe calls: an example of each
//! number from 20 to 27 with its place, after which lent memory is as it was, and
//! the line that a refusal prints. Follows document 02, No. 3.

use glospruma::{
    differences, form_points, form_rewrite, raw, read_table, report, write_form, Refusal, Refused,
    TABLE_LENGTH,
};

/// What a lent room holds before a call.
const PAINT: u16 = 9;

/// Both calls that read forms refuse the bytes so, and every other number is 0.
fn assert_form(bytes: &[u8], refusal: Refusal, place: usize) {
    let refused = Refused { refusal, place };
    let mut points = vec![PAINT; 16];
    assert_eq!(form_points(bytes, &mut points), Err(refused));
    let numbers = raw::FormPoints {
        refusal: refusal.into(),
        place,
        ..raw::FormPoints::default()
    };
    assert_eq!(raw::form_points(bytes, &mut points), numbers);
    let mut again = vec![PAINT as u8; bytes.len()];
    assert_eq!(form_rewrite(bytes, &mut again), Err(refused));
    let numbers = raw::FormRewrite {
        refusal: refusal.into(),
        place,
        ..raw::FormRewrite::default()
    };
    assert_eq!(raw::form_rewrite(bytes, &mut again), numbers);
    assert_eq!(points, [PAINT; 16]);
    assert!(again.iter().all(|&byte| u16::from(byte) == PAINT));
}

/// The call that reads tables refuses the bytes so, every other number is 0, and
/// the report is the line that says it.
fn assert_table(bytes: &[u8], refusal: Refusal, place: usize) {
    let refused = Refused { refusal, place };
    let (mut on, mut free) = (vec![PAINT; 4], vec![PAINT; 4]);
    assert_eq!(read_table(bytes, &mut on, &mut free), Err(refused));
    let numbers = raw::TableRead {
        refusal: refusal.into(),
        place,
        ..raw::TableRead::default()
    };
    assert_eq!(raw::read_table(bytes, &mut on, &mut free), numbers);
    assert_eq!((on, free), (vec![PAINT; 4], vec![PAINT; 4]));
    let mut room = vec![0; 30];
    let text = report(bytes, &mut room).expect("accepted").text;
    let line = refused.to_string();
    let (start, words) = line.split_once(": ").expect("words behind a colon");
    assert_eq!(
        (text, words),
        (&*format!("{start}\n"), &*refusal.to_string())
    );
}

/// P5's form, whole and cut, and with a byte changed or put in.
#[test]
fn damaged_forms() {
    let whole = [
        0x4E, 4, 0x50, 0x58, 1, 4, 0, 0x50, 0x58, 1, 12, 0, 0x58, 0, 11, 0, 0x45, 2, 0,
    ];
    let changed = |place: usize, byte: u8| {
        let mut bytes = whole.to_vec();
        bytes[place] = byte;
        bytes
    };
    for length in 0..whole.len() {
        assert_form(&whole[..length], Refusal::BytesMissing, length);
    }
    for (place, byte, refusal, at) in [
        (0, 0x4F, Refusal::WrongKind, 0),
        (2, 0x51, Refusal::WrongKind, 2),
        (2, 0x58, Refusal::WrongKind, 2),
        (1, 0, Refusal::WrongVariables, 1),
        (1, 13, Refusal::WrongVariables, 1),
        (1, 3, Refusal::WrongFactor, 9),
        (4, 2, Refusal::WrongFactor, 4),
        (5, 0, Refusal::WrongFactor, 4),
        (6, 1, Refusal::WrongFactor, 4),
        (14, 15, Refusal::NotCanonical, 13),
        (14, 8, Refusal::NotCanonical, 13),
        (17, 1, Refusal::WrongCount, 17),
        (18, 1, Refusal::WrongCount, 17),
    ] {
        assert_form(&changed(place, byte), refusal, at);
    }
    let longer = [&whole[..], &[0x45]].concat();
    assert_form(&longer, Refusal::BytesAfter, whole.len());
}

/// 64 products are a form, and the 65th is one too many, whatever follows it.
#[test]
fn too_many_products() {
    let products = |count: usize| [&[0x4E, 1][..], &vec![0x50; count]].concat();
    let most = [&products(64)[..], &[0x45, 64, 0]].concat();
    let mut points = vec![PAINT; 2];
    let read = form_points(&most, &mut points).expect("accepted");
    assert_eq!(read.points, [0, 1]);
    for count in [65, 66, 100] {
        assert_form(&products(count), Refusal::TooManyProducts, 66);
    }
}

/// The bytes of tables are judged before n and the points, which have no place.
#[test]
fn damaged_tables() {
    let cases: [(&[u8], Refusal, usize); 9] = [
        (&[], Refusal::BytesMissing, 0),
        (&[0x4E], Refusal::BytesMissing, 1),
        (&[0x4E, 2, 0x4F, 1], Refusal::BytesMissing, 4),
        (&[0x4E, 0, 0x50, 0x45, 1, 0], Refusal::WrongKind, 2),
        (&[0x4E, 0, 0x45, 1, 0], Refusal::WrongCount, 3),
        (&[0x4E, 0, 0x45, 0, 0, 0], Refusal::BytesAfter, 5),
        (&[0x4E, 0, 0x45, 0, 0], Refusal::Variables, 0),
        (&[0x4E, 1, 0x44, 2, 0, 0x45, 1, 0], Refusal::Point, 0),
        (
            &[0x4E, 1, 0x44, 1, 0, 0x4F, 1, 0, 0x45, 2, 0],
            Refusal::Order,
            0,
        ),
    ];
    for (bytes, refusal, place) in cases {
        assert_table(bytes, refusal, place);
    }
}

/// 4,097 points fill the longest table, and the end is missing. A byte more is one
/// after the end, whatever it is, if no earlier byte is at fault.
#[test]
fn longest_tables() {
    let points = [0x4F, 0, 0].repeat(4097);
    let mut bytes = [&[0x4E, 12][..], &points].concat();
    assert_eq!(bytes.len(), TABLE_LENGTH);
    assert_table(&bytes, Refusal::BytesMissing, TABLE_LENGTH);
    for byte in [0x4F, 0x46, 0] {
        let longer = [&bytes[..], &[byte]].concat();
        assert_table(&longer, Refusal::BytesAfter, TABLE_LENGTH);
    }
    bytes.push(0x45);
    bytes[TABLE_LENGTH - 3] = 0x46;
    assert_table(&bytes, Refusal::WrongKind, TABLE_LENGTH - 3);
}

/// `?` takes both kinds of refusal: those of lists have place 0.
#[test]
fn both_kinds() {
    fn form_length(stored: &[u8]) -> Result<usize, Refused> {
        let (mut on, mut free, mut room) = ([0; 2], [0; 2], [0; 20]);
        let table = read_table(stored, &mut on, &mut free)?;
        let form = write_form(table.variables, table.on, table.free, &mut room)?;
        Ok(form.bytes.len())
    }
    assert_eq!(form_length(&[0x4E, 1, 0x45, 0, 0]), Ok(5));
    let size = form_length(&[0x4E, 7, 0x4F, 0, 0, 0x45, 1, 0]);
    assert_eq!(size, Err(Refusal::Size.into()));
    let cut = form_length(&[0x4E]).unwrap_err();
    assert_eq!((cut.refusal, cut.place), (Refusal::BytesMissing, 1));
}

/// The place is printed with 20 to 27, also where it is 0, and with no other number.
#[test]
fn lines() {
    for refusal in Refusal::ALL {
        let number = u8::from(refusal);
        assert_eq!(refusal.has_place(), number >= 20);
        let start = match number {
            20.. => format!("refused {number} at 0: "),
            _ => format!("refused {number}: "),
        };
        assert_eq!(
            Refused::from(refusal).to_string(),
            format!("{start}{refusal}")
        );
    }
    let line = differences(&[0x4E, 2], &[]).unwrap_err().to_string();
    assert_eq!(line, "refused 21 at 2: bytes are missing");
}
