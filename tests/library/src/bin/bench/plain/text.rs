//! Pieces of text at the end of a list of bytes. Follows document 01, section
//! "The printed report".

/// A number in decimal.
pub fn decimal(text: &mut Vec<u8>, number: usize) {
    if number >= 10 {
        decimal(text, number / 10);
    }
    text.push(b'0' + (number % 10) as u8);
}

/// A word and a number.
pub fn number(text: &mut Vec<u8>, word: &[u8], value: usize) {
    text.extend_from_slice(word);
    decimal(text, value);
}

/// A line of a word and numbers, or `-` for none.
pub fn numbers_line(text: &mut Vec<u8>, word: &[u8], numbers: impl Iterator<Item = u16>) {
    text.extend_from_slice(word);
    let before = text.len();
    for value in numbers {
        number(text, b" ", usize::from(value));
    }
    if text.len() == before {
        text.extend_from_slice(b" -");
    }
    text.push(b'\n');
}

/// The variables of a mask, in index order, with a word between two.
pub fn variables(text: &mut Vec<u8>, between: &[u8], n: usize, mask: u16) {
    let mut first = true;
    for index in 1..=n {
        if mask >> (n - index) & 1 == 1 {
            if !first {
                text.extend_from_slice(between);
            }
            number(text, b"x", index);
            first = false;
        }
    }
}
