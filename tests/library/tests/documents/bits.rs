//! Leads and parities are found by counts (document 02, No. 2), each in one
//! function, of which crates/claims/specs/Bits.antt speaks: no other function of
//! the crates counts zeros or ones, but for the test for a prime and the next
//! vector of a set, which is the lowest bit of what is left of 64 places.

use crate::names::code_in;

/// The functions that count, with their files and the counts.
const COUNTING: [(&str, &str, &str); 5] = [
    ("gf2/src/lib.rt", "lead", "leading_zeros"),
    ("gf2/src/lib.rt", "parity", "count_ones"),
    ("masks/src/lib.rt", "count_in_prime", "count_ones"),
    ("point_sets/src/lib.rt", "least_from", "trailing_zeros"),
    ("product/src/lib.rt", "lowest", "trailing_zeros"),
];

/// The language's counts.
const COUNTS: [&str; 3] = ["leading_zeros", "trailing_zeros", "count_ones"];

/// The functions of a file of Rattle that count zeros or ones, with the counts.
fn counting(text: &str) -> Vec<(&str, &str)> {
    let mut found = Vec::new();
    for function in text.split("fn ").skip(1) {
        let (name, body) = function.split_once('(').expect("a name");
        let counts = COUNTS.into_iter();
        let made = counts.filter(|count| {
            ["::", "."]
                .iter()
                .any(|mark| body.contains(&format!("{mark}{count}(")))
        });
        found.extend(made.map(|count| (name, count)));
    }
    found
}

#[test]
fn no_other_function_counts() {
    let code = code_in("crates");
    let found: Vec<(&str, &str, &str)> = code
        .iter()
        .flat_map(|(file, text)| {
            let functions = counting(text).into_iter();
            functions.map(move |(name, count)| (file.as_str(), name, count))
        })
        .collect();
    assert_eq!(found, COUNTING);
}

#[test]
fn counts_are_found() {
    let text = &code_in("crates")["gf2/src/lib.rt"];
    for count in ["u16::leading_zeros(x)", "x.leading_zeros()"] {
        let other = text.replace("x ^ b", count);
        let found = counting(&other);
        assert_eq!(found[..2], counting(text));
        assert_eq!(found[2..], [("clear_lead", "leading_zeros")]);
    }
}
