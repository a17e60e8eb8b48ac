//! Texts in Berkeley PLA: whole ones in many layouts, ones of random statements,
//! and damaged ones. Follows docs/PLA.md; the same seed gives the same texts.

use reference::generate::Generator;
use reference::table::Table;

/// One of some choices.
fn pick<'a, T: ?Sized>(generator: &mut Generator, choices: &[&'a T]) -> &'a T {
    choices[generator.below(choices.len())]
}

/// So many symbols.
fn symbols(generator: &mut Generator, count: usize, choices: &[u8]) -> Vec<u8> {
    let draw = |_| choices[generator.below(choices.len())];
    (0..count).map(draw).collect()
}

/// The type of a text: that of its `.type` line, or none.
#[derive(Clone, Copy, Debug, PartialEq, Eq)]
pub struct Shape {
    pub kind: Option<&'static str>,
    pub inputs: usize,
    pub outputs: usize,
}

/// Every type, and none.
pub const KINDS: [Option<&str>; 4] = [None, Some("f"), Some("fd"), Some("fr")];

/// Blanks that may stand anywhere in a cube, most often none.
fn blank(generator: &mut Generator) -> &'static str {
    match generator.below(12) {
        0 => " ",
        1 => "\t",
        2 => "  ",
        _ => "",
    }
}

/// A cube with blanks between its symbols.
fn cube_line(generator: &mut Generator, inputs: &[u8], outputs: &[u8]) -> String {
    let mut line = blank(generator).to_string();
    for &symbol in inputs {
        line.push(char::from(symbol));
        line += blank(generator);
    }
    line += pick(generator, &["", " ", " ", " ", "\t"]);
    for &symbol in outputs {
        line.push(char::from(symbol));
        line += blank(generator);
    }
    line
}

/// Lines that say nothing, at times.
fn nothing(generator: &mut Generator, lines: &mut Vec<String>) {
    while generator.chance(12) {
        let line = pick(
            generator,
            &["", " ", "# .i 13", " \t # 2", "#", "\r", "#.e"],
        );
        lines.push(line.to_string());
    }
}

/// Joins lines, some with a comment or a carriage return before their end; the
/// last one may have no end.
fn joined(generator: &mut Generator, lines: &[String]) -> Vec<u8> {
    let mut text = String::new();
    for line in lines {
        text += line;
        text += match generator.below(15) {
            0 => " # 1 0 .e",
            1 => "#x",
            2 => "\r",
            3 => " ",
            _ => "",
        };
        text.push('\n');
    }
    if generator.chance(20) {
        text.pop();
    }
    text.into_bytes()
}

/// The symbols of an output that a cube may have, by type. Of type fr a cube has
/// 1 or 0 by a function, so that cubes rarely contradict each other.
fn output_symbols(generator: &mut Generator, shape: Shape, inputs: &[u8]) -> Vec<u8> {
    if shape.kind != Some("fr") || generator.chance(3) {
        return symbols(generator, shape.outputs, b"0011-~");
    }
    let symbol = match (inputs[0], generator.below(8)) {
        (_, 0) => b'-',
        (_, 1) | (b'-', _) => b'~',
        (value, _) => value,
    };
    vec![symbol; shape.outputs]
}

/// The cubes' lines.
fn cube_lines(generator: &mut Generator, shape: Shape, count: usize) -> Vec<String> {
    let line = |_| {
        let inputs = symbols(generator, shape.inputs, b"01010-");
        let outputs = output_symbols(generator, shape, &inputs);
        cube_line(generator, &inputs, &outputs)
    };
    (0..count).map(line).collect()
}

/// The directives before the cubes, in any order.
fn head_lines(generator: &mut Generator, shape: Shape, count: usize) -> Vec<String> {
    let mut lines = vec![
        format!(".i {}", shape.inputs),
        format!(" .o\t{} ", shape.outputs),
    ];
    lines.extend(shape.kind.map(|kind| format!(".type {kind}")));
    if generator.chance(50) {
        lines.push(format!(".p  {count}"));
    }
    if generator.chance(30) {
        lines.push(".ilb a b .i 7".to_string());
    }
    if generator.chance(30) {
        lines.push(".ob sum 10".to_string());
    }
    for place in (1..lines.len()).rev() {
        lines.swap(place, generator.below(place + 1));
    }
    lines
}

/// A whole text; only of type fr may it still be refused, as contradicting itself.
pub fn whole(generator: &mut Generator, shape: Shape, most_cubes: usize) -> Vec<u8> {
    let count = generator.below(most_cubes + 1);
    let mut lines = Vec::new();
    let head = head_lines(generator, shape, count);
    for line in head.into_iter().chain(cube_lines(generator, shape, count)) {
        nothing(generator, &mut lines);
        lines.push(line);
    }
    lines.push(pick(generator, &["", ".e", ".end", " .e"]).to_string());
    nothing(generator, &mut lines);
    joined(generator, &lines)
}

/// A random shape.
pub fn shape(generator: &mut Generator, most_inputs: usize, most_outputs: usize) -> Shape {
    Shape {
        kind: KINDS[generator.below(KINDS.len())],
        inputs: 1 + generator.below(most_inputs),
        outputs: 1 + generator.below(most_outputs),
    }
}

/// A text of random statements, right ones and wrong ones, in random order; most
/// have two inputs and one output.
pub fn statements(generator: &mut Generator) -> Vec<u8> {
    const SETTINGS: [&str; 16] = [
        ".i 2", ".o 1", ".type f", ".type fd", ".p 1", ".p 2", ".p 3", ".ilb a b", ".i 99", ".o 0",
        ".type g", ".p x", ".i", ".o 1 1", ".phase 1", ".e",
    ];
    const CUBES: [&str; 14] = [
        "11 1", "-1 1", "1- 0", "0- 0", "00 -", "0- ~", "101", "- 0 1", "11 0", "-- 1", "1 1",
        "21 1", "~1 1", ".e",
    ];
    let mut lines = Vec::new();
    if generator.chance(80) {
        lines.extend([".i 2".to_string(), ".o 1".to_string()]);
    }
    if generator.chance(40) {
        lines.push(".type fr".to_string());
    }
    for _ in 0..generator.below(3) {
        lines.push(pick(generator, &SETTINGS).to_string());
    }
    for _ in 0..generator.below(5) {
        nothing(generator, &mut lines);
        lines.push(pick(generator, &CUBES).to_string());
    }
    if generator.chance(20) {
        lines.push(pick(generator, &SETTINGS).to_string());
    }
    joined(generator, &lines)
}

/// The text with one damage: cut, a byte changed, taken away or put in, or a line
/// taken away, doubled or moved.
pub fn damaged(generator: &mut Generator, text: &[u8]) -> Vec<u8> {
    let byte = symbols(generator, 1, b"01-~.# \n\r\t2ieopf\0\xFF")[0];
    let place = generator.below(text.len());
    let (before, after) = text.split_at(place);
    let mut lines: Vec<&[u8]> = text.split_inclusive(|&byte| byte == b'\n').collect();
    let (line, other) = (generator.below(lines.len()), generator.below(lines.len()));
    match generator.below(7) {
        0 => return before.to_vec(),
        1 => return [before, &[byte], &after[1..]].concat(),
        2 => return [before, &after[1..]].concat(),
        3 => return [before, &[byte], after].concat(),
        4 => drop(lines.remove(line)),
        5 => lines.insert(other, lines[line]),
        _ => lines.swap(line, other),
    }
    lines.concat()
}

/// The symbols of a point's inputs, x1 first.
fn point_symbols(n: usize, point: u16) -> String {
    format!("{point:0n$b}")
}

/// A table as a text of the given type, a cube to each point that it must name.
pub fn of_table((n, on, free): &Table, kind: Option<&str>) -> Vec<u8> {
    let mut text = format!(".i {n}\n.o 1\n");
    text += &kind.map_or(String::new(), |kind| format!(".type {kind}\n"));
    for point in 0..1u16 << n {
        let is_free = free.contains(&point);
        let symbol = match on.contains(&point) {
            true => "1",
            false if is_free => "-",
            false => "0",
        };
        text += &format!("{} {symbol}\n", point_symbols(*n, point));
    }
    (text + ".e\n").into_bytes()
}
