//! Truth tables in Berkeley PLA that both ABC and the program `pla_to_table` read.
//! ABC takes a 1 as on and every other symbol as nothing, whatever the type is, so
//! the on points are compared. Follows docs/PLA.md; every run has the same texts.

use crate::networks;
use crate::Case;
use library::programs::run;
use reference::generate::Generator;
use reference::table;

/// How many texts.
const TEXTS: usize = 120;

const MOST_INPUTS: usize = 8;
const MOST_OUTPUTS: usize = 3;
const MOST_CUBES: usize = 16;

/// So many symbols.
fn symbols(generator: &mut Generator, count: usize, choices: &[u8]) -> String {
    let draw = |_| char::from(choices[generator.below(choices.len())]);
    (0..count).map(draw).collect()
}

/// A cube. Of type fr it is on or off by its first input, if that is 0 or 1, so
/// that no two cubes contradict each other.
fn cube(generator: &mut Generator, n: usize, outputs: usize, kind: &str) -> String {
    let inputs = symbols(generator, n, b"0101-");
    let choices: &[u8] = match (kind, inputs.as_bytes()[0]) {
        ("fr", b'0') => b"0~-",
        ("fr", b'1') => b"1~-",
        ("fr", _) => b"~-",
        _ => b"011-~",
    };
    format!("{inputs} {}\n", symbols(generator, outputs, choices))
}

/// A text, in the layout that ABC reads: with a cube at least, and with one blank
/// in each.
fn text(generator: &mut Generator, n: usize, outputs: usize) -> String {
    let kind = ["", "f", "fd", "fr"][generator.below(4)];
    let count = 1 + generator.below(MOST_CUBES);
    let mut text = format!(".i {n}\n.o {outputs}\n.ilb {}\n", networks::names("x", n));
    text += &format!(".ob {}\n", networks::names("f", outputs));
    if !kind.is_empty() {
        text += &format!(".type {kind}\n");
    }
    if generator.chance(50) {
        text += &format!("# cubes\n.p {count}\n");
    }
    for _ in 0..count {
        text += &cube(generator, n, outputs, kind);
    }
    text + ".e\n"
}

/// The on points of an output, as the program finds them.
fn on_points(text: &str, output: usize) -> Vec<u16> {
    let (bytes, said) = run("pla_to_table", &[&output.to_string()], text.as_bytes());
    assert_eq!(said, "", "output {output} of:\n{text}");
    table::read_stored(&bytes).expect("a stored table").1
}

/// A text with the on points of its outputs, and with one point more or less.
fn case(generator: &mut Generator) -> Case {
    let n = 1 + generator.below(MOST_INPUTS);
    let outputs = 1 + generator.below(MOST_OUTPUTS);
    let text = text(generator, n, outputs);
    let lists: Vec<Vec<u16>> = (1..=outputs)
        .map(|output| on_points(&text, output))
        .collect();
    let mut altered = lists.clone();
    let list = &mut altered[generator.below(outputs)];
    let point = generator.below(1 << n) as u16;
    match list.iter().position(|&other| other == point) {
        Some(place) => drop(list.remove(place)),
        None => list.push(point),
    }
    Case {
        what: format!("{lists:?} of:\n{text}"),
        networks: [
            (networks::lists(n, &lists), true),
            (networks::lists(n, &altered), false),
        ],
        truth: text,
    }
}

/// All texts.
pub fn all() -> Vec<Case> {
    let mut generator = Generator::new(191);
    (0..TEXTS).map(|_| case(&mut generator)).collect()
}
