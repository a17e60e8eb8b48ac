//! Files of cases, which came with document 02. A case is a block of lines, ended
//! by an empty line:
//!
//!     call NAME
//!     in FIELD TYPE VALUE      what the call takes
//!     out FIELD TYPE VALUE     what it returns and what lent memory then holds
//!
//! A lent room stands under `in` as it was lent, and under `out`, with the same
//! name, as it must be afterwards, whole. Types are `number`, `list`, `pairs` and
//! `bytes`; each has its function here. A `-` is a value of no entries.

use std::collections::BTreeMap;
use std::fmt::Debug;
use std::fs;
use std::str::FromStr;

const FOLDER: &str = concat!(env!("CARGO_MANIFEST_DIR"), "/../vectors/02");

/// A number in decimal.
fn number<N: FromStr<Err: Debug>>(text: &str) -> N {
    text.parse()
        .unwrap_or_else(|error| panic!("{text}: {error:?}"))
}

/// The entries of a value, with blanks between them.
fn entries<E>(text: &str, entry: impl Fn(&str) -> E) -> Vec<E> {
    match text {
        "-" => Vec::new(),
        _ => text.split(' ').map(entry).collect(),
    }
}

/// Two numbers with a colon between them.
fn pair(text: &str) -> (u16, u16) {
    let (first, second) = text.split_once(':').expect("a pair");
    (number(first), number(second))
}

/// What bytes begin with, a byte in hexadecimal or a run as `[NUMBERxBYTE]`: how
/// many there are, the byte, and the rest.
fn run(text: &str) -> (usize, u8, &str) {
    let (count, byte, rest) = match text.strip_prefix('[') {
        None => ("1", &text[..2], &text[2..]),
        Some(inside) => {
            let (inside, rest) = inside.split_once(']').expect("the end of a run");
            let (count, byte) = inside.split_once('x').expect("a run");
            (count, byte, rest)
        }
    };
    let byte = u8::from_str_radix(byte, 16).expect("a byte in hexadecimal");
    (number(count), byte, rest)
}

/// Bytes in hexadecimal, one behind the other.
fn bytes(text: &str) -> Vec<u8> {
    let mut bytes = Vec::new();
    let mut rest = if text == "-" { "" } else { text };
    while !rest.is_empty() {
        let (count, byte, behind) = run(rest);
        bytes.resize(bytes.len() + count, byte);
        rest = behind;
    }
    bytes
}

/// Type and value of each field of a call, by its name.
#[derive(Default)]
pub struct Fields(BTreeMap<String, (String, String)>);

impl Fields {
    /// The names, in order.
    pub fn names(&self) -> Vec<&str> {
        self.0.keys().map(String::as_str).collect()
    }

    /// The value of a field, which must be of this type.
    fn value(&self, name: &str, expected: &str) -> &str {
        let (found, value) = &self.0[name];
        assert_eq!(found, expected, "the type of {name}");
        value
    }

    pub fn number<N: FromStr<Err: Debug>>(&self, name: &str) -> N {
        number(self.value(name, "number"))
    }

    pub fn list(&self, name: &str) -> Vec<u16> {
        entries(self.value(name, "list"), number)
    }

    pub fn pairs(&self, name: &str) -> Vec<(u16, u16)> {
        entries(self.value(name, "pairs"), pair)
    }

    pub fn bytes(&self, name: &str) -> Vec<u8> {
        bytes(self.value(name, "bytes"))
    }
}

/// A call, what it takes, and what it gives.
pub struct Case {
    /// Where it stands, for messages.
    pub title: String,
    pub call: String,
    pub takes: Fields,
    pub gives: Fields,
}

impl Case {
    fn of(title: String, block: &str) -> Case {
        let (first, lines) = block.split_once('\n').expect("lines of a case");
        let call = first.strip_prefix("call ").expect("the name of a call");
        let (mut takes, mut gives) = (Fields::default(), Fields::default());
        for line in lines.lines() {
            let words: Vec<&str> = line.splitn(4, ' ').collect();
            let (fields, field) = match words[..] {
                ["in", name, kind, value] => (&mut takes, (name, kind, value)),
                ["out", name, kind, value] => (&mut gives, (name, kind, value)),
                _ => panic!("{title}: {line}"),
            };
            let (name, kind, value) = field;
            let typed = (kind.to_string(), value.to_string());
            let earlier = fields.0.insert(name.to_string(), typed);
            assert_eq!(earlier, None, "{title}: {name} stands there twice");
        }
        Case {
            title,
            call: call.to_string(),
            takes,
            gives,
        }
    }
}

/// The cases of a text, which has this name.
fn cases_of(name: &str, text: &str) -> Vec<Case> {
    let blocks = text.split_terminator("\n\n").enumerate();
    blocks
        .map(|(place, block)| Case::of(format!("{name}, case {}", place + 1), block))
        .collect()
}

/// The cases of a file, by its name without the extension.
pub fn read(name: &str) -> Vec<Case> {
    let text = fs::read_to_string(format!("{FOLDER}/{name}.cases"));
    cases_of(
        name,
        &text.unwrap_or_else(|error| panic!("{name}: {error}")),
    )
}

/// Two cases with a field of each type.
const TEXT: &str = "call first
in n number 18446744073709551615
in on list 0 12 4095
in free list -
out room bytes 00ff[3xa5]10[2x00]

call second
in data bytes -
in records pairs 5:0 0:65535
out records pairs -

";

#[test]
fn fields_of_each_type() {
    let cases = cases_of("a text", TEXT);
    let calls: Vec<&str> = cases.iter().map(|case| case.call.as_str()).collect();
    assert_eq!(calls, ["first", "second"]);
    assert_eq!(cases[1].title, "a text, case 2");
    let Case { takes, gives, .. } = &cases[0];
    assert_eq!(takes.names(), ["free", "n", "on"]);
    assert_eq!(takes.number::<u64>("n"), u64::MAX);
    assert_eq!(takes.list("on"), [0, 12, 4095]);
    assert_eq!(takes.list("free"), []);
    let room = [0x00, 0xFF, 0xA5, 0xA5, 0xA5, 0x10, 0x00, 0x00];
    assert_eq!(gives.bytes("room"), room);
    let Case { takes, gives, .. } = &cases[1];
    assert_eq!(takes.bytes("data"), []);
    assert_eq!(takes.pairs("records"), [(5, 0), (0, 65_535)]);
    assert_eq!(gives.pairs("records"), []);
}
