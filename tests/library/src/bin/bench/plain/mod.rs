//! The calls in plain Rust with the library's algorithms, one file to a call:
//! flags one to a point; a search over vectors and points that stops at the first
//! witness against closure, made of the full basis first and then of single
//! vectors, rising, without those that have a lead bit of the basis; insertion
//! into a reduced basis; for completion, a search for the largest space inside the
//! closure set over sets of four words; for primes, the table of all reduced bases,
//! and for a form the first prime that holds a point; for a comparison, one mark to a
//! point; for an index, a test of every product at every point. And completion as
//! source 003 has it, by growing a space.
//! Follows document 01, sections "Points and spaces", "Primes", "The written form"
//! and "The printed report", and document 02.

mod affine;
mod analyse;
mod bases;
mod basis;
mod choice;
mod compare;
mod complete;
mod growth;
mod index;
mod largest;
mod linear_space;
mod list_primes;
mod places;
mod products;
mod read_table;
mod report;
mod sets;
mod table;
mod text;
mod vector_sets;
mod write_form;

pub use affine::affine;
pub use analyse::analyse;
pub use compare::compare;
pub use complete::complete;
pub use growth::complete_by_growth;
pub use index::{index_append, index_build, index_remove, Way};
pub use linear_space::linear_space;
pub use list_primes::{list_primes, list_primes_by_bases};
pub use read_table::read_into_rooms;
pub use report::report;
pub use write_form::write_form;
