//! The calls of the static library as the tests and the benchmark make them: by
//! the declarations of the package in the folder `rust`, which return the
//! refusal number and all other numbers as they come. Follows document 01,
//! sections "What the library holds" and "Refusal numbers", and document 02. And
//! the built programs (module `programs`), and what the environment asks of the
//! tests (module `settings`).

pub mod programs;
pub mod settings;

pub use glospruma::raw::*;
