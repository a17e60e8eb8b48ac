//! Degrees of well-known functions, as published for them. Follows document 01,
//! section "Points and spaces".

use crate::lent_calls;
use glospruma::MAX_POINTS;
use reference::generate;
use reference::table::Table;

/// The degree of a complete function, on which three calls must agree.
fn degree((n, on, _): &Table) -> usize {
    let space = lent_calls::linear_space(*n, on);
    let mut room = vec![0; MAX_POINTS];
    let completion = lent_calls::complete(*n, on, &[], &mut room);
    let analysis = lent_calls::analyse(*n, on, &[], &mut room);
    let refusals = (space.refusal, completion.refusal, analysis.refusal);
    assert_eq!(refusals, (0, 0, 0));
    let degrees = [completion.k0, completion.k1, analysis.degree];
    assert_eq!(degrees, [space.degree; 3]);
    space.degree
}

/// The degrees of the outputs of a counter of set variables, the lowest first.
fn counter_degrees(n: usize) -> Vec<usize> {
    let outputs = 0..3;
    outputs
        .map(|bit| degree(&generate::weight_bit(n, bit)))
        .collect()
}

#[test]
fn counter_of_five() {
    assert_eq!(counter_degrees(5), [4, 1, 0]);
}

#[test]
fn counter_of_seven() {
    assert_eq!(counter_degrees(7), [6, 0, 0]);
}

#[test]
fn adder_of_four_bits() {
    let outputs = 0..5;
    let degrees: Vec<usize> = outputs
        .map(|output| degree(&generate::adder_output(4, output)))
        .collect();
    assert_eq!(degrees, [7, 5, 3, 1, 0]);
}

#[test]
fn symmetric_function_of_nine() {
    assert_eq!(degree(&generate::weight_between(9, 3, 6)), 1);
}

#[test]
fn game_of_life() {
    assert_eq!(degree(&generate::life()), 0);
}
