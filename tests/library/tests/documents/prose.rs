//! Names in running text: what is quoted with a dash, an underscore, a colon or a
//! capital letter inside is defined in some crate, and `crate::name` in that one,
//! or is a module of the tests. Plain words may be words of a language or of a
//! report, and aren't looked up.

use crate::crates;
use crate::files::documents;
use crate::names::{defined_by, defined_in, modules_in, read};
use crate::tables::quoted;
use std::collections::BTreeSet;

/// Words of that form that no crate and not the header defines: packages of Debian,
/// variables of the environment, names of the Rust package, and the toolchain.
const WORDS: [&str; 9] = [
    "berkeley-abc",
    "cargo-web",
    "GLOSPRUMA_CASES",
    "GLOSPRUMA_LIB_DIR",
    "GLOSPRUMA_SEED",
    "GLOSPRUMA_SHARE",
    "index_lookup",
    "rattle-kit-13f",
    "VERSION",
];

/// The modules that compare the calls with the reference, by their files.
const TESTS: &str = "tests/library/tests/calls";

/// Whether a word has the form of a name that is looked up.
fn is_name(word: &str) -> bool {
    let is_letter = |letter: char| letter.is_ascii_alphanumeric() || "_-:".contains(letter);
    let is_mark = |letter: char| letter.is_ascii_uppercase() || "_-:".contains(letter);
    word.starts_with(|first: char| first.is_ascii_alphabetic())
        && word.chars().all(is_letter)
        && word.chars().skip(1).any(is_mark)
}

/// All names, those of a type also without it.
fn all_names() -> BTreeSet<String> {
    let mut names = defined_in("crates");
    let short = names.iter().filter_map(|name| name.split_once("::"));
    let short: Vec<String> = short.map(|(_, name)| name.to_string()).collect();
    names.extend(short);
    names.extend(crates::names());
    names.extend(modules_in(TESTS));
    names.extend(WORDS.map(str::to_string));
    names.extend(header_names());
    names
}

/// The names that the header declares: structs, functions, constants and numbers.
fn header_names() -> BTreeSet<String> {
    let header = read("include/glospruma.h");
    let words = header.split(|letter: char| !letter.is_ascii_alphanumeric() && letter != '_');
    let declared = |word: &&str| word.starts_with("glospruma_") || word.starts_with("GLOSPRUMA_");
    words.filter(declared).map(str::to_string).collect()
}

/// The names of a text that nothing defines.
fn unknown<'a>(text: &'a str, names: &BTreeSet<String>) -> Vec<&'a str> {
    let words = text.lines().flat_map(quoted).filter(|word| is_name(word));
    let is_known = |word: &&str| match word.split_once("::") {
        Some((name, rest)) if crates::names().contains(name) => defined_by(name).contains(rest),
        _ => names.contains(*word),
    };
    words.filter(|word| !is_known(word)).collect()
}

/// docs/SPECIFICATION.md is left to the stricter check of its tables.
#[test]
fn names_in_documents_are_defined() {
    let names = all_names();
    for document in documents() {
        if document != "docs/SPECIFICATION.md" {
            let text = read(&document);
            assert_eq!(unknown(&text, &names), Vec::<&str>::new(), "{document}");
        }
    }
}

#[test]
fn unknown_names_are_found() {
    let names = all_names();
    let known =
        "`linear-span`, `linear_space`, `first_witness`, `space::first_witness`, `Basis::insert`";
    assert_eq!(unknown(known, &names), Vec::<&str>::new());
    let wrong =
        "`linear-spam`, `linearspace`, `linear_spaces`, `basis::first_witness`, `Basis::inserts`";
    let expected = [
        "linear-spam",
        "linear_spaces",
        "basis::first_witness",
        "Basis::inserts",
    ];
    assert_eq!(unknown(wrong, &names), expected);
}
