//! A plain reference for the whole library, written from the definitions and
//! made to judge, not to be fast. Follows document 01, section "What the
//! library holds", and document 02; each module names what it follows.

pub mod calls;
pub mod compare;
pub mod completion;
pub mod cover;
pub mod faults;
pub mod form;
pub mod generate;
pub mod index;
pub mod numbers;
pub mod pla;
pub mod primes;
pub mod refusal;
pub mod report;
pub mod space;
pub mod table;
pub mod walk;
