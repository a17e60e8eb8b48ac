//! The program that reads a truth table in Berkeley PLA compared with the
//! reference: the stored table that it writes, or the refusal number and line.
//! Follows docs/PLA.md.

use crate::pla_texts::{self as texts, Shape, KINDS};
use crate::tally::{assert_counts, Tally};
use glospruma::MAX_VARIABLES;
use library::programs::run;
use library::settings::{some, taken};
use reference::generate::{self, Generator};
use reference::pla::{self, Refused, MOST_OUTPUTS};
use reference::table::{self, Table};

/// The longest text that the program reads.
const LONGEST_TEXT: usize = 1 << 20;

/// What the program writes for an answer: the table, or what is refused.
fn written(answer: &Result<Table, Refused>) -> (Vec<u8>, String) {
    match answer {
        Ok((n, on, free)) => (table::write_stored(*n, on, free), String::new()),
        Err((refusal, 0)) => (Vec::new(), format!("refused {refusal}\n")),
        Err((refusal, line)) => (Vec::new(), format!("refused {refusal} line {line}\n")),
    }
}

/// Runs the program with one argument.
fn converted(text: &[u8], argument: &str) -> (Vec<u8>, String) {
    run("pla_to_table", &[argument], text)
}

/// Compares the program with the reference on a text and a chosen output; hands
/// back the reference's answer.
fn compare(tally: &mut Tally, text: &[u8], chosen: usize) -> Result<Table, Refused> {
    let answer = pla::read(text, chosen);
    let found = converted(text, &chosen.to_string());
    let shown = String::from_utf8_lossy(text);
    assert_eq!(found, written(&answer), "output {chosen} of:\n{shown}");
    tally.add(answer.as_ref().err().map_or(0, |refused| refused.0));
    answer
}

/// Both the program and the reference must give this answer.
fn expect(text: &str, argument: &str, expected: Result<Table, Refused>) {
    let number = pla::number(argument.as_bytes()).unwrap_or(usize::MAX);
    assert_eq!(pla::read(text.as_bytes(), number), expected, "{text}");
    let found = converted(text.as_bytes(), argument);
    assert_eq!(found, written(&expected), "output {argument} of:\n{text}");
}

/// A text of each type with all symbols, cubes that overlap, and three outputs.
#[test]
fn meaning_of_the_types() {
    let cubes = "00- 101\n-11 -1~\n1-1 01-\n01- 1~0\n";
    let of_kind = |kind: &str| format!(".i 3\n.o 3\n{kind}{cubes}.e\n");
    let on = [vec![0, 1, 2, 3], vec![3, 5, 7], vec![0, 1]];
    let dashes = [vec![7], vec![], vec![5, 7]];
    for (place, on) in on.iter().enumerate() {
        let argument = (place + 1).to_string();
        let free = &dashes[place];
        let table = |free: &[u16]| Ok((3, on.clone(), free.to_vec()));
        expect(&of_kind(""), &argument, table(free));
        expect(&of_kind(".type fd\n"), &argument, table(free));
        expect(&of_kind(".type f\n"), &argument, table(&[]));
    }
    // Of type fr the second output has a 0 at points 0 and 1, the third at 2 and 3.
    let fr = of_kind(".type fr\n");
    expect(&fr, "1", Ok((3, vec![0, 1, 2, 3], vec![4, 6])));
    expect(&fr, "2", Ok((3, vec![3, 5, 7], vec![2, 4, 6])));
    expect(&fr, "3", Ok((3, vec![0, 1], vec![4, 5, 6, 7])));
}

/// The first input is the highest bit; a point that is on and free is on.
#[test]
fn highest_input_and_on_before_free() {
    let head = ".i 4\n.o 1\n";
    let one = |cube: &str| format!("{head}{cube}");
    expect(&one("1000 1"), "1", Ok((4, vec![8], vec![])));
    expect(&one("0001 1"), "1", Ok((4, vec![1], vec![])));
    expect(&one("110- -\n1100 1"), "1", Ok((4, vec![12], vec![13])));
    expect(&one("1100 1\n110- -"), "1", Ok((4, vec![12], vec![13])));
    expect(&one("1100 1\n110- 0"), "1", Ok((4, vec![12], vec![])));
    expect(head, "1", Ok((4, vec![], vec![])));
    let all_free = (0..16).collect();
    expect(".type fr\n.i 4\n.o 1\n.e", "1", Ok((4, vec![], all_free)));
}

/// Each refusal with its line, and which of two faults is told.
#[test]
fn each_refusal() {
    let cases: &[(&str, &str, u8, usize)] = &[
        (".i 2\n.o 1\n.phase 1\n", "1", 31, 3),
        (".\n", "1", 31, 1),
        (".i2\n", "1", 31, 1),
        (".I 2\n", "1", 31, 1),
        ("\n\n.i\n", "1", 31, 3),
        (".i 2 3\n", "1", 31, 1),
        (".o\n", "1", 31, 1),
        (".p\n", "1", 31, 1),
        (".p -1\n", "1", 31, 1),
        (".p 1000000000\n", "1", 31, 1),
        (".type\n", "1", 31, 1),
        (".type FD\n", "1", 31, 1),
        (".type fdr\n", "1", 31, 1),
        (".e 1\n", "1", 31, 1),
        (".i 0\n", "1", 32, 1),
        (".i 99\n", "1", 32, 1),
        (".i 1.\n", "1", 32, 1),
        (".i +2\n", "1", 32, 1),
        (".i 18446744073709551617\n", "1", 32, 1),
        (".i 4294967298\n", "1", 32, 1),
        (".o 0\n", "1", 33, 1),
        (".o 4097\n", "1", 33, 1),
        (".o x\n", "1", 33, 1),
        (".i 2\n.i 2\n", "1", 34, 2),
        (".o 2\n.i 2\n.o 2\n", "1", 34, 3),
        (".p 2\n.p 2\n", "1", 34, 2),
        (".type f\n.type f\n", "1", 34, 2),
        ("1 1\n", "1", 34, 1),
        (".i 1\n1 1\n", "1", 34, 2),
        (".o 1\n1 1\n", "1", 34, 2),
        (".i 1\n.o 1\n1 1\n.p 1\n", "1", 34, 4),
        (".i 1\n.o 1\n1 1\n.type f\n", "1", 34, 4),
        (".e\n# over\n\n1 1\n", "1", 35, 4),
        (".i 1\n.o 1\n.end\n.end\n", "1", 35, 4),
        (".i 2\n.o 1\n11\n", "1", 36, 3),
        (".i 2\n.o 1\n11 11\n", "1", 36, 3),
        (".i 2\n.o 1\n12 1\n", "1", 36, 3),
        (".i 2\n.o 1\n~1 1\n", "1", 36, 3),
        (".i 2\n.o 1\n11 2\n", "1", 36, 3),
        (".i 2\n.o 1\n11|1\n", "1", 36, 3),
        (".i 2\n.o 1\n11 1.e\n", "1", 36, 3),
        (".type fr\n.i 2\n.o 1\n11 1\n-1 0\n", "1", 37, 5),
        (".type fr\n.i 2\n.o 2\n11 00\n0- 11\n-1 01\n", "2", 37, 6),
        ("", "1", 38, 0),
        (".i 2\n.e\n", "1", 38, 0),
        (".o 2\n", "1", 38, 0),
        (".i 2\n.o 1\n.p 1\n", "1", 39, 0),
        (".i 2\n.o 1\n.p 1\n11 1\n11 1\n", "1", 39, 0),
        (".i 2\n.o 1\n", "0", 40, 0),
        (".i 2\n.o 1\n", "2", 40, 0),
        (".i 2\n.o 1\n", "one", 40, 0),
        (".i 2\n.o 1\n", "", 40, 0),
        (".i 2\n.o 1\n", "1 ", 40, 0),
        (".i 2\n.o 1\n", "18446744073709551617", 40, 0),
        // Of two faults: the first line, and in one line 35, then 31 for the
        // number of words, then 34, then the word.
        (".i 2\n.o 9999\n.i 99\n", "0", 33, 2),
        (".e\n.phase\n", "1", 35, 2),
        (".e\n1\n", "1", 35, 2),
        (".i 2\n.i\n", "1", 31, 2),
        (".i 2\n.i 99\n", "1", 34, 2),
        (".o 2\n.o 0\n", "1", 34, 2),
        (".p 2\n.p x\n", "1", 34, 2),
        (".type f\n.type x\n", "1", 34, 2),
        ("x\n", "1", 34, 1),
        (".type fr\n.i 2\n.o 1\n11 1\n11 0 1\n", "1", 36, 5),
        // At the end 38, then 39, then 40.
        (".p 1\n.o 2\n", "3", 38, 0),
        (".p 1\n.i 2\n.o 2\n", "3", 39, 0),
    ];
    for &(text, argument, refusal, line) in some(cases) {
        expect(text, argument, Err((refusal, line)));
    }
    let told: std::collections::BTreeSet<u8> = cases.iter().map(|case| case.2).collect();
    assert_eq!(told, (31..=40).collect());
    let too_many = format!(".i {}\n", MAX_VARIABLES + 1);
    expect(&too_many, "1", Err((32, 1)));
}

/// What looks like a fault and is none.
#[test]
fn accepted_layouts() {
    let texts = [
        ".i 2\n.o 1\n11 1\n10 -",
        ".o 1\r\n.i 2\r\n\r\n1 1 1\r\n1\t0-\r\n.e\r\n\r\n",
        "# .i 3\n  .i 002 # two\n.o 1#\n.ilb\n.ob a b c\n.ilb .e\n1 11\n.ilb a b\n10-\n.end # .e\n#",
        ".p 0000000000000002\n.type fd\n.i 2\n.o 1\n111\n10-\n.e",
    ];
    for text in texts {
        expect(text, "1", Ok((2, vec![3], vec![2])));
    }
    // The point stands in no other output's contradiction.
    let other = ".type fr\n.i 1\n.o 2\n1 11\n1 10\n0 01\n";
    expect(other, "1", Ok((1, vec![1], vec![])));
    expect(other, "2", Err((37, 5)));
    expect(other, "3", Err((40, 0)));
}

/// Without an argument the output is the first; later arguments say nothing.
#[test]
fn no_argument() {
    let text = b".i 1\n.o 2\n1 10\n0 01\n";
    let first = (table::write_stored(1, &[1], &[]), String::new());
    assert_eq!(run("pla_to_table", &[], text), first);
    assert_eq!(run("pla_to_table", &["1", "2"], text), first);
    let second = (table::write_stored(1, &[0], &[]), String::new());
    assert_eq!(run("pla_to_table", &["2"], text), second);
    assert_eq!(run("pla_to_table", &["0000000000002"], text), second);
}

/// Counts of accepted texts by type, with on and with free points.
#[derive(Default)]
struct Counts {
    by_kind: [usize; 4],
    with_on: usize,
    with_free: usize,
}

impl Counts {
    fn add(&mut self, shape: Shape, (_, on, free): &Table) {
        let place = KINDS.iter().position(|&kind| kind == shape.kind);
        self.by_kind[place.expect("a type")] += 1;
        self.with_on += usize::from(!on.is_empty());
        self.with_free += usize::from(!free.is_empty());
    }
}

#[test]
fn whole_texts() {
    let mut tally = Tally::new("pla to table, whole texts");
    let mut counts = Counts::default();
    let mut generator = Generator::new(180);
    for turn in some(0..250) {
        let most_inputs = if turn < 200 { 6 } else { MAX_VARIABLES };
        let shape = texts::shape(&mut generator, most_inputs, 4);
        let text = texts::whole(&mut generator, shape, 12);
        for chosen in 1..=shape.outputs {
            if let Ok(table) = compare(&mut tally, &text, chosen) {
                counts.add(shape, &table);
            }
        }
    }
    println!(
        "accepted by type {:?}, with on points {}, with free points {}",
        counts.by_kind, counts.with_on, counts.with_free
    );
    assert_counts("texts by type", &counts.by_kind, 50);
    assert_counts("texts with on points", &[counts.with_on], 200);
    assert_counts("texts with free points", &[counts.with_free], 100);
    tally.finish(&[0, 37]);
}

#[test]
fn random_statements() {
    let mut tally = Tally::new("pla to table, random statements");
    let mut generator = Generator::new(181);
    for _ in 0..taken(600) {
        let text = texts::statements(&mut generator);
        let chosen = [1, 1, 1, 0, 2][generator.below(5)];
        let _ = compare(&mut tally, &text, chosen);
    }
    tally.finish(&[0, 31, 32, 33, 34, 35, 36, 37, 38, 39, 40]);
}

#[test]
fn damaged_texts() {
    let mut tally = Tally::new("pla to table, damaged texts");
    let mut generator = Generator::new(182);
    for _ in 0..taken(700) {
        let shape = texts::shape(&mut generator, 5, 3);
        let mut text = texts::whole(&mut generator, shape, 6);
        for _ in 0..1 + generator.below(2) {
            if !text.is_empty() {
                text = texts::damaged(&mut generator, &text);
            }
        }
        let chosen = match generator.chance(5) {
            true => shape.outputs + 1,
            false => 1 + generator.below(shape.outputs),
        };
        let _ = compare(&mut tally, &text, chosen);
    }
    tally.finish(&[0, 31, 32, 33, 34, 35, 36, 37, 38, 39, 40]);
}

/// Bytes of any value, between the lines of a text and alone.
#[test]
fn any_bytes() {
    let mut tally = Tally::new("pla to table, any bytes");
    for byte in some(0..=255u8) {
        let text = [b".i 1\n.o 1\n1 1\n".as_slice(), &[byte], b"\n.e"].concat();
        let _ = compare(&mut tally, &text, 1);
    }
    tally.finish(&[0, 31, 36]);
}

/// A table written as a text of each type that can say it comes back.
#[test]
fn tables_there_and_back() {
    let mut generator = Generator::new(183);
    for n in some((1..=MAX_VARIABLES).flat_map(|n| [n; 4])) {
        let on_percent = generator.below(101);
        let free_percent = generator.below(101 - on_percent);
        let table = generate::random_table(&mut generator, n, on_percent, free_percent);
        for kind in [None, Some("fd"), Some("fr")] {
            let text = texts::of_table(&table, kind);
            assert_eq!(
                converted(&text, "1"),
                written(&Ok(table.clone())),
                "{kind:?}"
            );
        }
        let complete = (n, table.1, Vec::new());
        for kind in [Some("f"), Some("fr")] {
            let text = texts::of_table(&complete, kind);
            assert_eq!(
                converted(&text, "1"),
                written(&Ok(complete.clone())),
                "{kind:?}"
            );
        }
    }
}

/// As many inputs and outputs as there may be.
#[test]
fn largest_texts() {
    let mut tally = Tally::new("pla to table, largest texts");
    let mut generator = Generator::new(184);
    for kind in KINDS {
        let shape = Shape {
            kind,
            inputs: MAX_VARIABLES,
            outputs: MOST_OUTPUTS,
        };
        let text = texts::whole(&mut generator, shape, 12);
        for chosen in [1, 2, MOST_OUTPUTS - 1, MOST_OUTPUTS, MOST_OUTPUTS + 1, 0] {
            let _ = compare(&mut tally, &text, chosen);
        }
    }
    tally.finish(&[0, 40]);
}

/// The longest text that is read, with many lines: accepted, refused at its last
/// line, and one byte longer.
#[test]
fn longest_text() {
    let mut generator = Generator::new(185);
    let mut text = b".i 12\n.o 1\n".to_vec();
    for _ in 0..1000 {
        let point = generator.below(4096);
        text.extend(format!("{point:012b} 1\n").bytes());
    }
    text.extend(b"-----------0 -\n");
    text.resize(LONGEST_TEXT, b'\n');
    let mut tally = Tally::new("pla to table, the longest text");
    let _ = compare(&mut tally, &text, 1);
    text[LONGEST_TEXT - 1] = b'1';
    let refused = compare(&mut tally, &text, 1).expect_err("a cube of one symbol");
    assert!(refused.1 > 1_000_000);
    tally.finish(&[0, 36]);
    text.push(b'#');
    let too_long = (Vec::new(), "text too long\n".to_string());
    assert_eq!(converted(&text, "1"), too_long);
}
