//! The independent program: every public function defined a second time, as
//! plainly as possible, with cases and a comparison.
//!
//! `compare` puts generated cases to the program `exam`, to both entries that C
//! and Rust link and to the listing program, and compares every answer whole;
//! `cases` writes cases and answers to files; `stand_in` answers in a program's
//! place; `simulate` runs accepted tables in random legal schedules and counts
//! late jobs; `example_books` writes the books in `examples/`.
#![forbid(unsafe_code)]

pub mod audit;
pub mod book;
pub mod comparison;
pub mod exam;
pub mod examine;
pub mod examples;
pub mod gen;
pub mod host;
pub mod known;
pub mod listing;
pub mod options;
pub mod policy;
pub mod program;
pub mod search;
pub mod simulate;
pub mod table;
pub mod test;
