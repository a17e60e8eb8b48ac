//! Degrees of well-known functions, as published for them, and those of simple
//! families. Follows document 01, section "Points and spaces".

use reference::generate;
use reference::space;
use reference::table::{Table, MOST_VARIABLES};

/// The degree of a complete function.
fn degree((n, on, _): &Table) -> usize {
    space::linear_space(*n, on).len()
}

#[test]
fn counters_rd53_and_rd73() {
    let rd53: Vec<usize> = (0..3)
        .map(|bit| degree(&generate::weight_bit(5, bit)))
        .collect();
    assert_eq!(rd53, [4, 1, 0]);
    let rd73: Vec<usize> = (0..3)
        .map(|bit| degree(&generate::weight_bit(7, bit)))
        .collect();
    assert_eq!(rd73, [6, 0, 0]);
}

#[test]
fn adder_of_four_bits() {
    let outputs = 0..5;
    let degrees: Vec<usize> = outputs
        .map(|output| degree(&generate::adder_output(4, output)))
        .collect();
    assert_eq!(degrees, [7, 5, 3, 1, 0]);
}

#[test]
fn nine_variable_functions() {
    assert_eq!(degree(&generate::weight_between(9, 3, 6)), 1);
    assert_eq!(degree(&generate::life()), 0);
    assert_eq!(generate::weight_between(9, 3, 6).1.len(), 420);
    assert_eq!(generate::life().1.len(), 140);
}

#[test]
fn parity_has_degree_one_below_n() {
    for n in 1..=MOST_VARIABLES {
        assert_eq!(degree(&generate::weight_bit(n, 0)), n - 1);
        assert_eq!(degree(&(n, vec![], vec![])), n);
        assert_eq!(degree(&generate::threshold(n, 0)), n);
        let conjunction = degree(&generate::threshold(n, n as u32));
        assert_eq!(conjunction, 0);
    }
}

#[test]
fn example_of_five_variables() {
    let on = [1, 4, 6, 8, 10, 13, 17, 19, 20, 24, 29, 31];
    let basis = space::linear_space(5, &on);
    assert_eq!(basis, [12, 21]);
    assert_eq!(space::restriction(5, &on, &basis), [1, 4, 6]);
}
