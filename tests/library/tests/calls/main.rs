//! Comparison of each call of the static library with the reference, one module
//! to a call; `cases`, `examples`, `published` and `vectors` compare with fixed
//! answers instead. `damaged_bytes` and `damaged_lists` make all calls on inputs
//! damaged at random, `places` makes those that read bytes on inputs with faults at
//! every place, `largest_space` checks what must hold of completed functions and
//! `index_runs` what must hold of an index after each of many changes, `guarded` makes
//! every call on the same input twice, with guard pages on either side, `small_stack`
//! makes them with little stack, and `safe` makes the safe calls of the Rust package.
//! Follows document 01, sections "Points and spaces", "Primes", "The written form",
//! "Refusal numbers", "The printed report" and "Table of proved examples", and document
//! 02.
//!
//! Every list, every room and all bytes of every call stand in memory of `lent`,
//! beside a page that may not be touched. A further call takes a module here with
//! its own `compare` and the inputs of `tables`, `lists`, `stored` and `forms`, and
//! a line of `lent_calls`; its declaration stands in the package in the folder
//! `rust`.

mod case_files;
mod forms;
mod judges;
mod lent;
mod lent_calls;
mod lists;
mod pages;
mod random_run;
mod stored;
mod tables;
mod tally;

mod affine;
mod analyse;
mod compare;
mod complete;
mod form_points;
mod form_rewrite;
mod index;
mod index_runs;
mod linear_space;
mod list_primes;
mod read_table;
mod report;
mod write_form;

mod cases;
mod damaged_bytes;
mod damaged_lists;
mod examples;
mod guarded;
mod largest_space;
mod places;
mod published;
mod safe;
mod small_stack;
mod vectors;
