//! The part of the independent program that the direct one uses, in Rust that Debian's compiler
//! reads too: `tools/benchmark --count` builds it for x86-64 on other machines.
#![forbid(unsafe_code)]

#[path = "../src/book.rs"]
pub mod book;
#[path = "../src/search.rs"]
pub mod search;
#[path = "../src/table.rs"]
pub mod table;
#[path = "../src/test.rs"]
pub mod test;
