//! The proved static library, called so that it can be held to the reference.
//!
//! In reading order: memory to lend (`lent`), the exports that hosts call (`host`)
//! and those that only tests call (`probes`), every call made on such memory with
//! its answer in the reference's types (`calls`), and what tests draw from: named
//! cases (`cases`), faults and their order (`faults`), how much is run (`rounds`).

#![warn(missing_docs)]

pub mod host;
pub mod lent;
pub mod probes;

pub mod calls;

pub mod cases;
pub mod faults;
pub use reference::rounds;

/// The wrapper's page: its examples are run with these tests.
#[cfg(doctest)]
#[doc = include_str!("../../../bindings/rust/README.md")]
pub struct Readme;

/// The project's page: its Rust is run with these tests.
#[cfg(doctest)]
#[doc = include_str!("../../../README.md")]
pub struct ProjectReadme;
