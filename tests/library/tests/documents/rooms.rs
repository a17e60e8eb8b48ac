//! Rooms that always suffice: the numbers of the header and of the Rust package
//! are those of the claims in crates/claims/specs/Rooms.antt.

use crate::names::read;
use crate::tables::numbers;
use std::collections::{BTreeMap, BTreeSet};

/// Constants of the header that are no rooms.
const OTHERS: [&str; 6] = [
    "MAX_VARIABLES",
    "MAX_LISTED",
    "MAX_SEARCHED",
    "RECORD_LENGTH",
    "DIFFERENCE_LENGTH",
    "NO_PRODUCT",
];

/// The number that a text begins with, with or without underscores.
fn number(text: &str) -> usize {
    let end = text.find(|letter: char| !letter.is_ascii_digit() && letter != '_');
    let digits = text[..end.unwrap_or(text.len())].replace('_', "");
    digits.parse().expect("a number")
}

/// The constants of a text that are numbers, behind some words and with a text
/// between name and number.
fn constants<'a>(text: &'a str, before: &str, between: &str) -> BTreeMap<&'a str, usize> {
    let lines = text.lines().filter_map(|line| line.strip_prefix(before));
    let pair = |line: &'a str| line.split_once(between);
    let is_number =
        |(_, rest): &(&str, &str)| rest.starts_with(|first: char| first.is_ascii_digit());
    lines
        .filter_map(pair)
        .filter(is_number)
        .map(|(name, rest)| (name, number(rest)))
        .collect()
}

/// The numbers of four digits and more under each name of the claims: a name in
/// capitals begins the comment above what it bounds.
fn claimed(text: &str) -> BTreeMap<&str, Vec<usize>> {
    let mut found: BTreeMap<&str, Vec<usize>> = BTreeMap::new();
    let mut name = "";
    for line in text.lines() {
        let comment = line.trim_start().strip_prefix("-- ");
        let named = comment.and_then(|comment| comment.split_once(": "));
        let is_capital = |letter: char| letter.is_ascii_uppercase() || letter == '_';
        match named {
            Some((first, _)) if first.chars().all(is_capital) => name = first,
            None if comment.is_none() && !name.is_empty() => {
                let large = numbers(line).into_iter().filter(|&number| number > 999);
                found.entry(name).or_default().extend(large);
            }
            _ => (),
        }
    }
    found
}

/// Rooms of a text of claims that aren't those of the header or of the package.
fn wrong(claims: &str) -> Vec<String> {
    let header = read("include/glospruma.h");
    let package = read("rust/src/lib.rs");
    let mut of_header = constants(&header, "#define GLOSPRUMA_", " ");
    of_header.retain(|name, _| !OTHERS.contains(name));
    let of_package = constants(&package, "pub const ", ": usize = ");
    let claimed = claimed(claims);
    let differs = |name: &&str| {
        let value = of_header.get(*name);
        let same = |found: &Vec<usize>| {
            !found.is_empty() && found.iter().all(|number| Some(number) == value)
        };
        value.is_none() || of_package.get(*name) != value || !claimed.get(*name).is_some_and(same)
    };
    let names: BTreeSet<&str> = of_header.keys().chain(claimed.keys()).copied().collect();
    let differing = names.into_iter().filter(differs);
    differing.map(str::to_string).collect()
}

#[test]
fn rooms_are_those_that_suffice() {
    let claims = read("crates/claims/specs/Rooms.antt");
    assert_eq!(wrong(&claims), Vec::<String>::new());
    assert_eq!(claimed(&claims).len(), 7);
}

#[test]
fn other_rooms_are_found() {
    let claims = read("crates/claims/specs/Rooms.antt");
    for (name, found) in claimed(&claims) {
        let value = found[0].to_string();
        let other = claims.replacen(&value, &(found[0] + 1).to_string(), 1);
        assert_eq!(wrong(&other), [name]);
        let renamed = claims.replace(&format!("-- {name}: "), "-- OTHER: ");
        assert!(wrong(&renamed).contains(&name.to_string()), "{name}");
    }
}
