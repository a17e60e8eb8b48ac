//! Comments of the crates: every theorem that one quotes is there, and every other name
//! of that form: small letters with a dash or an underscore inside.

use crate::crates;
use crate::names::{comments_in, defined_in};
use crate::tables::quoted;
use std::collections::BTreeSet;

/// Words and theorems of the kit that comments quote.
const KIT: [&str; 4] = ["flat_map", "get_or", "xor_lt", "xor_self"];

/// Whether a word has the form of a theorem's name.
fn is_theorem(word: &str) -> bool {
    let is_part =
        |part: &str| !part.is_empty() && part.chars().all(|letter| letter.is_ascii_lowercase());
    word.contains(['-', '_']) && word.split(['-', '_']).all(is_part)
}

/// The theorems of some comments that nothing defines, and of how many.
fn unknown(comments: &[String], names: &BTreeSet<String>) -> (Vec<String>, usize) {
    let words = comments.iter().flat_map(|line| quoted(line));
    let theorems: Vec<&str> = words.filter(|word| is_theorem(word)).collect();
    let missing = theorems.iter().filter(|word| !names.contains(**word));
    (
        missing.map(|word| word.to_string()).collect(),
        theorems.len(),
    )
}

fn all_names() -> BTreeSet<String> {
    let mut names = defined_in("crates");
    names.extend(crates::names());
    names.extend(KIT.map(str::to_string));
    names
}

#[test]
fn theorems_in_comments_are_defined() {
    let (missing, looked_up) = unknown(&comments_in("crates"), &all_names());
    assert_eq!(missing, Vec::<String>::new());
    assert!(looked_up >= 100, "{looked_up} theorems quoted");
}

#[test]
fn unknown_theorems_are_found() {
    let comment =
        "-- That it is so is `linear-span`, not `linear-spam`; `-` and `a - b` are no names.";
    let found = unknown(&[comment.to_string()], &all_names());
    assert_eq!(found, (vec!["linear-spam".to_string()], 2));
}
