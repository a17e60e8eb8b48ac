//! The reader of Berkeley PLA on every pair of cubes of two inputs, by what each
//! point is told. Follows docs/PLA.md.

use reference::pla::{number, read};

const INPUTS: [&str; 9] = ["00", "01", "0-", "10", "11", "1-", "-0", "-1", "--"];

const SYMBOLS: [char; 4] = ['0', '1', '-', '~'];

/// Every cube of two inputs and one output.
fn cubes() -> impl Iterator<Item = (&'static str, char)> {
    INPUTS
        .into_iter()
        .flat_map(|inputs| SYMBOLS.map(|symbol| (inputs, symbol)))
}

/// Whether a point is in a cube, by its number written in base 2.
fn is_in(point: u16, inputs: &str) -> bool {
    let written = format!("{point:02b}");
    let mut pairs = written.chars().zip(inputs.chars());
    pairs.all(|(digit, symbol)| symbol == '-' || symbol == digit)
}

/// The points told the given symbol.
fn told(cubes: &[(&str, char)], symbol: char) -> Vec<u16> {
    let is_told = |&(inputs, said): &(&str, char), point| said == symbol && is_in(point, inputs);
    let points = 0..4;
    let chosen = points.filter(|&point| cubes.iter().any(|cube| is_told(cube, point)));
    chosen.collect()
}

#[test]
fn every_pair_of_cubes() {
    let mut contradictions = 0;
    for (first, second) in cubes().flat_map(|first| cubes().map(move |second| (first, second))) {
        let pair = [first, second];
        let lines = pair
            .map(|(inputs, symbol)| format!("{inputs} {symbol}\n"))
            .concat();
        let of_kind = |kind: &str| read(format!(".i 2\n.o 1\n{kind}\n{lines}").as_bytes(), 1);
        let (on, off, dash) = (told(&pair, '1'), told(&pair, '0'), told(&pair, '-'));
        let but = |points: &[u16], others: &[u16]| -> Vec<u16> {
            let kept = points.iter().copied();
            kept.filter(|point| !others.contains(point)).collect()
        };
        assert_eq!(of_kind(".type f"), Ok((2, on.clone(), vec![])));
        assert_eq!(of_kind(".type fd"), Ok((2, on.clone(), but(&dash, &on))));
        assert_eq!(of_kind(""), of_kind(".type fd"));
        let untold = but(&but(&[0, 1, 2, 3], &on), &off);
        if but(&on, &off) == on {
            assert_eq!(of_kind(".type fr"), Ok((2, on, untold)));
        } else {
            assert_eq!(of_kind(".type fr"), Err((37, 5)));
            contradictions += 1;
        }
    }
    assert_eq!(contradictions, 98);
}

#[test]
fn numbers() {
    let read = |word: &str| number(word.as_bytes());
    assert_eq!(read("0"), Some(0));
    assert_eq!(read("0000000000000000000000000000012"), Some(12));
    assert_eq!(read("999999999"), Some(999_999_999));
    for word in [
        "",
        "1000000000",
        "99999999999999999999999",
        "-1",
        "+1",
        "1.",
        "x",
        "1 ",
    ] {
        assert_eq!(read(word), None, "{word}");
    }
}
