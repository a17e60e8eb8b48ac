//! The reader of truth tables in Berkeley PLA: one output of a text as a table,
//! or the refusal number and the line at fault. Follows docs/PLA.md; not of document 01.

use crate::table::{Table, MOST_VARIABLES};

/// A directive is unknown or isn't followed by what it needs.
pub const DIRECTIVE: u8 = 31;
/// `.i` isn't followed by a number from 1 to 12.
pub const INPUTS: u8 = 32;
/// `.o` isn't followed by a number from 1 to 4,096.
pub const OUTPUTS: u8 = 33;
/// A directive is given twice or after a cube, or a cube before `.i` and `.o`.
pub const ORDER: u8 = 34;
/// Something stands after the end.
pub const AFTER_END: u8 = 35;
/// A cube doesn't have the right symbols.
pub const SYMBOLS: u8 = 36;
/// A cube makes a point both on and off.
pub const ON_AND_OFF: u8 = 37;
/// `.i` or `.o` is missing.
pub const MISSING: u8 = 38;
/// `.p` isn't the number of cubes.
pub const CUBE_COUNT: u8 = 39;
/// The chosen output is 0 or above `.o`.
pub const CHOSEN: u8 = 40;

/// Most outputs of a text.
pub const MOST_OUTPUTS: usize = 4096;

/// Numbers are below this one.
pub const NUMBER_BOUND: usize = 1_000_000_000;

/// A refusal number with its line, counted from 1, or 0 at the end of the text.
pub type Refused = (u8, usize);

/// What the symbols of an output mean.
#[derive(Clone, Copy, Debug, PartialEq, Eq)]
pub enum Kind {
    /// On points; all others are off.
    F,
    /// On and free points; all others are off.
    Fd,
    /// On and off points; all others are free.
    Fr,
}

/// A cube: a symbol for each input, and the symbol of the chosen output, if the
/// text has that output.
struct Cube {
    inputs: Vec<u8>,
    symbol: Option<u8>,
}

impl Cube {
    /// Whether a point is in the cube; the first input is the highest bit.
    fn covers(&self, point: u16) -> bool {
        let places = (0..self.inputs.len()).rev();
        let mut pairs = self.inputs.iter().zip(places);
        pairs.all(|(&symbol, place)| match symbol {
            b'0' => point >> place & 1 == 0,
            b'1' => point >> place & 1 == 1,
            _ => true,
        })
    }

    /// Whether some point is in both cubes: no input is 0 in one and 1 in the other.
    fn meets(&self, other: &Cube) -> bool {
        let mut pairs = self.inputs.iter().zip(&other.inputs);
        pairs.all(|pair| !matches!(pair, (b'0', b'1') | (b'1', b'0')))
    }

    /// Whether one makes a point on and the other makes it off, of type fr.
    fn contradicts(&self, other: &Cube) -> bool {
        let symbols = (self.symbol, other.symbol);
        let opposite = matches!(symbols, (Some(b'0'), Some(b'1')) | (Some(b'1'), Some(b'0')));
        opposite && self.meets(other)
    }
}

/// What the lines so far say.
#[derive(Default)]
struct Known {
    inputs: Option<usize>,
    outputs: Option<usize>,
    announced: Option<usize>,
    kind: Option<Kind>,
    cubes: Vec<Cube>,
    ended: bool,
}

/// The number that a word is: digits only, below the bound.
pub fn number(word: &[u8]) -> Option<usize> {
    let digits = std::str::from_utf8(word).ok()?;
    let only_digits = !digits.is_empty() && digits.bytes().all(|byte| byte.is_ascii_digit());
    let value = digits.trim_start_matches('0');
    match (only_digits, value) {
        (false, _) => None,
        (true, "") => Some(0),
        (true, _) => value.parse().ok().filter(|&value| value < NUMBER_BOUND),
    }
}

/// The number that a word is, if it is from 1 to a most.
fn number_to(word: &[u8], most: usize) -> Option<usize> {
    number(word).filter(|value| (1..=most).contains(value))
}

/// The type that a word is.
fn kind(word: &[u8]) -> Option<Kind> {
    match word {
        b"f" => Some(Kind::F),
        b"fd" => Some(Kind::Fd),
        b"fr" => Some(Kind::Fr),
        _ => None,
    }
}

/// The words of a line: what blanks part, as far as the comment.
fn words(line: &[u8]) -> Vec<&[u8]> {
    let before = line.split(|&byte| byte == b'#').next().unwrap_or(&[]);
    let parts = before.split(|byte| b" \t\r".contains(byte));
    parts.filter(|word| !word.is_empty()).collect()
}

impl Known {
    /// A directive of one word.
    fn setting(&mut self, name: &[u8], word: &[u8]) -> Result<(), u8> {
        let given = match name {
            b".i" => self.inputs.is_some(),
            b".o" => self.outputs.is_some(),
            b".p" => self.announced.is_some(),
            _ => self.kind.is_some(),
        };
        if given || !self.cubes.is_empty() {
            return Err(ORDER);
        }
        match name {
            b".i" => self.inputs = Some(number_to(word, MOST_VARIABLES).ok_or(INPUTS)?),
            b".o" => self.outputs = Some(number_to(word, MOST_OUTPUTS).ok_or(OUTPUTS)?),
            b".p" => self.announced = Some(number(word).ok_or(DIRECTIVE)?),
            _ => self.kind = Some(kind(word).ok_or(DIRECTIVE)?),
        }
        Ok(())
    }

    /// A directive. Names of inputs and outputs may be any words.
    fn directive(&mut self, name: &[u8], rest: &[&[u8]]) -> Result<(), u8> {
        match (name, rest) {
            (b".i" | b".o" | b".p" | b".type", [word]) => self.setting(name, word),
            (b".ilb" | b".ob", _) => Ok(()),
            (b".e" | b".end", []) => {
                self.ended = true;
                Ok(())
            }
            _ => Err(DIRECTIVE),
        }
    }

    /// A cube, given by its symbols without blanks.
    fn cube(&mut self, symbols: &[u8], chosen: usize) -> Result<(), u8> {
        let (Some(inputs), Some(outputs)) = (self.inputs, self.outputs) else {
            return Err(ORDER);
        };
        if symbols.len() != inputs + outputs {
            return Err(SYMBOLS);
        }
        let (inputs, outputs) = symbols.split_at(inputs);
        let right_inputs = inputs.iter().all(|symbol| b"01-".contains(symbol));
        let right_outputs = outputs.iter().all(|symbol| b"01-~".contains(symbol));
        if !right_inputs || !right_outputs {
            return Err(SYMBOLS);
        }
        let place = chosen.checked_sub(1);
        let cube = Cube {
            inputs: inputs.to_vec(),
            symbol: place.and_then(|place| outputs.get(place).copied()),
        };
        let mut before = self.cubes.iter();
        if self.kind == Some(Kind::Fr) && before.any(|other| cube.contradicts(other)) {
            return Err(ON_AND_OFF);
        }
        self.cubes.push(cube);
        Ok(())
    }

    /// One line.
    fn line(&mut self, line: &[u8], chosen: usize) -> Result<(), u8> {
        let words = words(line);
        match words.split_first() {
            None => Ok(()),
            Some(_) if self.ended => Err(AFTER_END),
            Some((name, rest)) if name.starts_with(b".") => self.directive(name, rest),
            Some(_) => self.cube(&words.concat(), chosen),
        }
    }

    /// Whether a cube with a symbol for the chosen output covers a point.
    fn says(&self, symbol: u8, point: u16) -> bool {
        let mut cubes = self.cubes.iter();
        cubes.any(|cube| cube.symbol == Some(symbol) && cube.covers(point))
    }

    /// Whether a point is free, if it isn't on.
    fn is_free_unless_on(&self, point: u16) -> bool {
        match self.kind.unwrap_or(Kind::Fd) {
            Kind::F => false,
            Kind::Fd => self.says(b'-', point),
            Kind::Fr => !self.says(b'0', point),
        }
    }

    /// The table of the chosen output, at the end of the text.
    fn table(&self, chosen: usize) -> Result<Table, u8> {
        let (Some(n), Some(outputs)) = (self.inputs, self.outputs) else {
            return Err(MISSING);
        };
        if self
            .announced
            .is_some_and(|count| count != self.cubes.len())
        {
            return Err(CUBE_COUNT);
        }
        if !(1..=outputs).contains(&chosen) {
            return Err(CHOSEN);
        }
        let (mut on, mut free) = (Vec::new(), Vec::new());
        for point in 0..1u16 << n {
            if self.says(b'1', point) {
                on.push(point);
            } else if self.is_free_unless_on(point) {
                free.push(point);
            }
        }
        Ok((n, on, free))
    }
}

/// Reads the chosen output, counted from 1, of a text.
pub fn read(text: &[u8], chosen: usize) -> Result<Table, Refused> {
    let mut known = Known::default();
    for (place, line) in text.split(|&byte| byte == b'\n').enumerate() {
        let judged = known.line(line, chosen);
        judged.map_err(|refusal| (refusal, place + 1))?;
    }
    known.table(chosen).map_err(|refusal| (refusal, 0))
}
