//! The built programs that the tests run as they stand, one module to a program:
//! each is compared with the reference. The report program is also run by .ci/run,
//! on the folder `vectors`. Where programs are looked for is said in
//! library/src/programs.rs.

#[path = "../calls/tally.rs"]
mod tally;

mod glospruma_report;
mod pla_texts;
mod pla_to_table;
