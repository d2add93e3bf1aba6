//! The tables that the benchmarks measure: at the border between placed and blocked, where the
//! search works most.

use super::tables::border_tables;
use crate::book::{book_of, Verdict};
use crate::table::Lent;

/// Rows and cores.
pub const SIZES: [(usize, u32); 4] = [(31, 4), (48, 4), (96, 4), (96, 32)];
pub const TABLES: u64 = 24;

/// The side of the border that a table lies on.
#[derive(Clone, Copy, Debug, PartialEq, Eq)]
pub enum Side {
    Accepted,
    Blocked,
}

impl Side {
    pub const ALL: [Side; 2] = [Side::Accepted, Side::Blocked];

    pub fn name(self) -> &'static str {
        match self {
            Side::Accepted => "accepted",
            Side::Blocked => "blocked",
        }
    }
}

/// The books of the tables of a size on one side, without a verdict.
pub fn border_books(side: Side, n: usize, m: u32) -> Vec<Vec<u8>> {
    let book = |seed| {
        let (accepted, blocked) = border_tables(seed, n, m);
        let lent = if side == Side::Accepted { accepted } else { blocked };
        book_of(&lent, &Verdict::none())
    };
    (0..TABLES).map(book).collect()
}

/// The book of n rows that all pass at once, whatever stands above them.
pub fn light_book(n: usize) -> Vec<u8> {
    let words = [1, 10_000_000, 10_000_000].repeat(n);
    book_of(&Lent { words, m: 32 }, &Verdict::none())
}
