//! The documents hold: what README.md, docs/*.md and the others name is there. Theorems,
//! definitions, functions and must-fail edits are defined in the crate or file
//! named beside them (`proved`, `specification`), names in running text somewhere
//! (`prose`), calls and refusal numbers are those of the code and of the header
//! (`calls`), the contracts of the calls are those of demand 1 (`demand`), every
//! crate has its row (`crates`), and files exist (`files`). So do the theorems that
//! comments of the crates quote (`comments`). Rooms that suffice are proved to be
//! those of the header and of the Rust package (`rooms`), zeros and ones are
//! counted in few functions (`bits`), and bytes that a document has as an example of
//! a refusal are refused so (`refusals`).
//!
//! Every check returns what it finds wrong, so that it can be tried on a document
//! with a mistake in it: misspelt, each name that a check reads is found.

mod names;
mod tables;

mod bits;
mod calls;
mod comments;
mod crates;
mod demand;
mod files;
mod prose;
mod proved;
mod refusals;
mod rooms;
mod specification;
