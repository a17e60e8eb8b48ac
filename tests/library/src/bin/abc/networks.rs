//! Tables, forms and lists of points as ABC reads them: a table in Berkeley PLA,
//! point by point; a form as a network in BLIF of XORs, ANDs and one OR, product by
//! product as it stands; lists of points as such a network, an output to each. Follows document 01, section "The written form".

use reference::form::{Factor, Form};
use reference::table::Table;

/// So many names, a letter with an index from 1 on, with blanks between them.
pub fn names(letter: &str, count: usize) -> String {
    let names: Vec<String> = (1..=count)
        .map(|index| format!("{letter}{index}"))
        .collect();
    names.join(" ")
}

/// The inputs, x1 first.
fn inputs(n: usize) -> String {
    names("x", n)
}

/// The values of the inputs at a point, x1 first.
fn values(n: usize, point: u16) -> String {
    format!("{point:0n$b}")
}

/// A table in which every point stands: the on points with 1, all others with 0.
pub fn table((n, on, _): &Table) -> String {
    let names = inputs(*n);
    let mut text = format!(".i {n}\n.o 1\n.ilb {names}\n.ob f\n.type fr\n");
    for point in 0..1u16 << n {
        let value = u8::from(on.contains(&point));
        text += &format!("{} {value}\n", values(*n, point));
    }
    text + ".e\n"
}

/// A node that is the XOR of the inputs of a mask, or its negation for constant
/// 0. Nodes `name_k` carry the XOR of the first inputs on.
fn factor(n: usize, name: &str, factor: &Factor) -> String {
    let mut text = String::new();
    let mut before = String::new();
    for index in (1..=n).filter(|index| factor.mask >> (n - index) & 1 == 1) {
        let node = format!("{name}_{index}");
        text += &match before.as_str() {
            "" => format!(".names x{index} {node}\n1 1\n"),
            _ => format!(".names {before} x{index} {node}\n10 1\n01 1\n"),
        };
        before = node;
    }
    text + &format!(".names {before} {name}\n{} 1\n", factor.constant)
}

/// A product: a node that is the AND of its factors; without factors always 1.
fn product(n: usize, name: &str, factors: &[Factor]) -> String {
    let named = |place: usize| format!("{name}_{place}");
    let each = factors.iter().enumerate();
    let nodes: Vec<String> = each
        .map(|(place, one)| factor(n, &named(place), one))
        .collect();
    let names: Vec<String> = (0..factors.len()).map(named).collect();
    let ones = "1".repeat(factors.len());
    format!(
        "{}.names {} {name}\n{ones} 1\n",
        nodes.concat(),
        names.join(" ")
    )
}

/// A node that is 1 at the given points alone. ABC takes a node that is always 0
/// without inputs only.
fn points(n: usize, name: &str, points: &[u16]) -> String {
    if points.is_empty() {
        return format!(".names {name}\n");
    }
    let rows = points
        .iter()
        .map(|&point| format!("{} 1\n", values(n, point)));
    format!(".names {} {name}\n{}", inputs(n), rows.collect::<String>())
}

/// A form, with output 0 at the free points: where it agrees with a table at all
/// others, that is 1 at exactly the on points. Without products it is always 0.
pub fn form(form: &Form, free: &[u16]) -> String {
    let n = form.variables;
    let count = form.products.len();
    let named = |place: usize| format!("p{place}");
    let mut text = format!(".model form\n.inputs {}\n.outputs f\n", inputs(n));
    for (place, factors) in form.products.iter().enumerate() {
        text += &product(n, &named(place), factors);
    }
    let names: Vec<String> = (0..count).map(named).collect();
    text += &format!(".names {} form\n", names.join(" "));
    for place in 0..count {
        text += &format!(
            "{}1{} 1\n",
            "-".repeat(place),
            "-".repeat(count - 1 - place)
        );
    }
    text += &points(n, "free", free);
    text + ".names form free f\n10 1\n.end\n"
}

/// A network with an output f1, f2 and so on for each list of points, that is 1 at
/// these points alone.
pub fn lists(n: usize, lists: &[Vec<u16>]) -> String {
    let outputs = names("f", lists.len());
    let nodes = lists.iter().enumerate();
    let nodes = nodes.map(|(place, list)| points(n, &format!("f{}", place + 1), list));
    let nodes: String = nodes.collect();
    format!(
        ".model lists\n.inputs {}\n.outputs {outputs}\n{nodes}.end\n",
        inputs(n)
    )
}
