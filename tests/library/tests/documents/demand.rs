//! Demand 1 is said of the running calls: every public call has its line in
//! `Demand1`, and what that line says is returned, and stands in each room
//! afterwards, are the very terms of the call's contract. The numbers that a
//! refused answer has as 0 are all its numbers but the refusal and its place, and
//! the place is told of every answer that has one.

use crate::names::{defined_in, read};
use std::collections::BTreeMap;

const CODE: &str = "crates/glospruma/src/lib.rt";
const DEMAND: &str = "crates/claims/specs/Demand1.antt";

/// What is said of a call: the term for what it returns, and each room with the
/// term for what it holds afterwards.
#[derive(Debug, PartialEq)]
struct Said {
    returned: String,
    rooms: Vec<(String, String)>,
}

/// A text with single blanks, and without brackets around a single word.
fn plain(text: &str) -> String {
    let mut words = text.split_whitespace().collect::<Vec<&str>>().join(" ");
    while let Some((open, word)) = words.match_indices('(').find_map(|(open, _)| {
        let word = words[open + 1..].split_once(')')?.0;
        let single = !word.is_empty() && !word.contains([' ', '(']);
        single.then_some((open, word.to_string()))
    }) {
        words.replace_range(open..open + word.len() + 2, &word);
    }
    words
}

/// The parts of a text at its top level: words, and what stands in brackets.
fn parts(text: &str) -> Vec<String> {
    let (mut found, mut depth) = (vec![String::new()], 0);
    for letter in text.chars() {
        depth += i32::from(letter == '(') - i32::from(letter == ')');
        match letter {
            ' ' if depth == 0 => found.push(String::new()),
            _ => found.last_mut().expect("a part").push(letter),
        }
    }
    found.retain(|part| !part.is_empty());
    found
}

/// A part without the brackets around it.
fn bare(part: &str) -> &str {
    let inside = part
        .strip_prefix('(')
        .and_then(|rest| rest.strip_suffix(')'));
    inside.unwrap_or(part)
}

/// The contracts of the exported calls, by their names without prefix.
fn contracts(code: &str) -> BTreeMap<String, Said> {
    let exported = code.split("pub extern \"C\" fn glospruma_").skip(1);
    let contract = |part: &str| {
        let name = part.split('(').next().expect("a name").to_string();
        let head = part
            .split("\n{")
            .next()
            .expect("what stands before its body");
        let mut said = Said {
            returned: String::new(),
            rooms: Vec::new(),
        };
        for clause in head.split("\n    ensures ").skip(1) {
            let (_, clause) = clause.split_once("{ ").expect("its beginning");
            let (clause, _) = clause.rsplit_once(" }").expect("its end");
            let (left, right) = clause.split_once('≡').expect("an equation");
            let right = plain(&right.replace(".now", "").replace(".old", ""));
            match left.trim().strip_suffix(".new") {
                None => said.returned = right,
                Some(room) => said.rooms.push((room.to_string(), right)),
            }
        }
        (name, said)
    };
    exported.map(contract).collect()
}

/// The fields of Demand 1, each with its name and without its comments.
fn demand_fields(demand: &str) -> Vec<(String, String)> {
    let (_, fields) = demand
        .split_once("pub record Demand1 ")
        .expect("the record");
    let field = |field: &str| {
        let name = field.split(' ').next().expect("a name").to_string();
        let uncommented = field.lines().filter(|line| !line.trim().starts_with("--"));
        (name, plain(&uncommented.collect::<Vec<&str>>().join(" ")))
    };
    fields.split("\n  pub ").skip(1).map(field).collect()
}

/// The lent list of records of a call, and the term for what it holds afterwards,
/// from its own line, which has the call's name and `list`.
fn lent_list(fields: &[(String, String)], name: &str) -> Option<(String, String)> {
    let line = format!("{name}_list");
    let (_, field) = fields.iter().find(|(name, _)| *name == line)?;
    let arguments = parts(field.split_once("→ LentList ")?.1);
    Some((arguments[2].clone(), bare(&arguments[3]).to_string()))
}

/// The lines of Demand 1 that speak of a call, by their names. A list of records
/// stands before a room, as among the parameters.
fn lines(demand: &str) -> BTreeMap<String, Said> {
    let fields = demand_fields(demand);
    let line = |(name, field): &(String, String)| {
        let arguments = parts(field.split_once("→ Decides ")?.1);
        let room = |words: &[String]| (words[2].clone(), bare(&words[3]).to_string());
        let rooms = parts(bare(&arguments[6]));
        let list = lent_list(&fields, name).into_iter();
        let said = Said {
            returned: bare(&arguments[5]).to_string(),
            rooms: list.chain(rooms.chunks_exact(5).map(room)).collect(),
        };
        Some((name.clone(), said))
    };
    fields.iter().filter_map(line).collect()
}

/// The calls of which the contract and Demand 1 don't say the same.
fn differing(code: &str, demand: &str) -> Vec<String> {
    let (contracts, lines) = (contracts(code), lines(demand));
    let names = contracts.keys().chain(lines.keys());
    let mut wrong: Vec<String> = names
        .filter(|name| contracts.get(*name) != lines.get(*name))
        .cloned()
        .collect();
    wrong.sort();
    wrong.dedup();
    wrong
}

#[test]
fn contracts_are_those_of_demand_1() {
    let (code, demand) = (read(CODE), read(DEMAND));
    assert_eq!(differing(&code, &demand), Vec::<String>::new());
    let contracts = contracts(&code);
    assert_eq!(
        contracts.len(),
        code.matches("#[unsafe(no_mangle)]").count()
    );
    for (name, said) in &contracts {
        assert!(!said.returned.is_empty(), "{name}");
        // A contract with another term, in either place, is found.
        let other = demand.replace(&format!(" ({})", said.returned), " (another)");
        assert_eq!(differing(&code, &other), [name.as_str()]);
        for (_, after) in &said.rooms {
            let other = demand.replace(&format!(" ({after})"), " (another)");
            assert_eq!(differing(&code, &other), [name.as_str()]);
        }
        // So is a call without a line.
        let other = demand.replace(&format!("  pub {name} :"), "  pub without :");
        let mut found = [name.as_str(), "without"];
        found.sort();
        assert_eq!(differing(&code, &other), found);
    }
}

/// The fields of a struct of the crates' code, or of a record of their definitions.
fn fields(name: &str) -> Vec<String> {
    let code = [
        "basis",
        "stored",
        "compare",
        "form_calls",
        "listing",
        "writing",
        "report",
        "analysis",
        "space_answer",
        "index",
    ];
    let texts = code.map(|name| read(&format!("crates/{name}/src/lib.rt")));
    let opening = format!("pub struct {name} {{");
    if let Some((_, body)) = texts.iter().find_map(|text| text.split_once(&opening)) {
        let body = body.split('}').next().expect("its end");
        let names = body
            .split("pub ")
            .skip(1)
            .map(|field| field.split(':').next());
        return names
            .map(|name| name.expect("a name").to_string())
            .collect();
    }
    let prefix = format!("{name}.");
    let defined = defined_in("crates/cubes/specs/Listing.antt");
    let names = defined.iter().filter_map(|name| name.strip_prefix(&prefix));
    names.map(str::to_string).collect()
}

/// The numbers that are left out where all numbers of an answer but its refusal and
/// its place are listed.
fn left_out(demand: &str) -> Vec<String> {
    let mut missing = Vec::new();
    for part in demand.split("\nabbrev pub ").skip(1) {
        let (head, body) = part.split_once('\n').expect("a definition");
        let Some((name, kind)) = head
            .split_once(" : ")
            .and_then(|(name, kind)| Some((name, kind.strip_suffix(" → List ℕ")?)))
        else {
            continue;
        };
        let body = body
            .split("\n\n")
            .next()
            .expect("its end")
            .replace(['«', '»'], "");
        let fields = fields(kind);
        assert!(!fields.is_empty(), "{name}: {kind}");
        let listed = |field: &&String| {
            body.split_whitespace()
                .any(|word| word.trim_end_matches(')').ends_with(&format!(".{field}")))
        };
        let others = fields
            .iter()
            .filter(|field| !["refusal", "place"].contains(&field.as_str()));
        missing.extend(
            others
                .filter(|field| !listed(field))
                .map(|field| format!("{name}: {field}")),
        );
    }
    missing
}

/// The lists of all other numbers, each with whether its answer has a place, and
/// whether the line of Demand 1 that names the list tells it.
fn places(demand: &str) -> BTreeMap<String, (bool, bool)> {
    let (_, fields_of_demand) = demand
        .split_once("pub record Demand1 ")
        .expect("the record");
    let kinds = demand.split("\nabbrev pub ").filter_map(|part| {
        let (name, kind) = part.lines().next()?.split_once(" : ")?;
        Some((name.to_string(), kind.strip_suffix(" → List ℕ")?))
    });
    kinds
        .filter_map(|(name, kind)| {
            let line = fields_of_demand
                .lines()
                .find(|line| line.ends_with(&format!(" {name}")))?;
            let has = fields(kind).contains(&"place".to_string());
            Some((name, (has, line.contains(" r.place)"))))
        })
        .collect()
}

#[test]
fn places_are_told() {
    let demand = read(DEMAND);
    let found = places(&demand);
    // The three calls on an index give one kind of answer.
    assert_eq!(found.len() + 2, contracts(&read(CODE)).len());
    assert_eq!(found.values().filter(|(has, _)| *has).count(), 5);
    for (name, (has, told)) in found {
        assert_eq!(has, told, "{name}");
    }
    let other = demand.replace("r.place) compare_others", "0) compare_others");
    assert_eq!(places(&other)["compare_others"], (true, false));
}

#[test]
fn refused_numbers_are_all_of_them() {
    let demand = read(DEMAND);
    assert_eq!(left_out(&demand), Vec::<String>::new());
    let other = demand.replace("r.k0 ∷ ", "");
    assert_eq!(left_out(&other), ["complete_others: k0"]);
}
