//! Cases at every limit of document 01, each with the number promised there, so that
//! every run tries both sides of each. `docs/LIMITS.md` is their list.

mod books;
mod orders;
mod rooms;
mod sets;
mod states;
mod tables;
mod verdicts;

use crate::book::{book_length, Verdict};
use crate::exam::Case;
use crate::examine::HostCase;
use crate::search::{audsley, State};
use crate::table::{order_bytes, Lent, Mask, MOST_ROWS, MOST_TICKS};

const FILL: u8 = 0xA5;

/// Numbers of rows where a word of a set, a block of a book or the table is just full.
const ROW_COUNTS: [usize; 11] = [1, 2, 41, 42, 43, 63, 64, 65, 84, 95, 96];

/// A case at a limit.
pub struct Limit<C> {
    pub limit: &'static str,
    /// Where it stands on this or that side of the limit.
    pub at: String,
    pub case: C,
    /// What document 01 promises.
    pub number: u64,
}

fn limit<C>(limit: &'static str, at: &str, case: C, number: u64) -> Limit<C> {
    Limit { limit, at: at.to_string(), case, number }
}

/// Rows so light that two cores take any number of them in any order, and heavier ones too.
fn light(n: usize) -> Lent {
    Lent { words: [1, MOST_TICKS, MOST_TICKS].repeat(n), m: 2 }
}

/// Rows of which one core takes a single one.
fn heavy(n: usize) -> Lent {
    Lent { words: [5, 5, 5].repeat(n), m: 1 }
}

fn first_rows(n: usize) -> Mask {
    Mask::of(&(0..n).collect())
}

/// An order that the search finds; any where it finds none.
fn order_of(lent: &Lent) -> Vec<u8> {
    let found = lent.checked().map(|table| audsley(&table).order).unwrap_or_default();
    let any: Vec<usize> = (0..lent.n()).collect();
    order_bytes(if found.len() == lent.n() { &found } else { &any })
}

/// A case of a kind that lends a table, well-formed in all but the table.
fn case_of(kind: u8, lent: Lent) -> Case {
    let n = lent.n().min(MOST_ROWS);
    let output = vec![FILL; if kind == 7 { book_length(n) } else { n }];
    match kind {
        1 => Case::Test { lent, k: 0, above: Mask::of(&(1..n).collect()) },
        2 => Case::Search { lent, output },
        3 => Case::Step { lent, state: State::fresh(), quota: u64::MAX },
        4 => Case::Policy { lent, policy: 2, output },
        5 => Case::CheckOrder { order: order_of(&lent), lent },
        6 => Case::CheckGroup { lent, group: first_rows(n) },
        7 => Case::WriteBook { lent, verdict: Verdict::none(), output },
        _ => panic!("kind {kind} lends no table"),
    }
}

/// The number of that case with a table of n light rows: without rows there is none to test
/// and no group, and a light row of a group passes.
fn number_of(kind: u8, n: usize) -> u64 {
    match (kind, n) {
        (1 | 6, 0) => 5,
        (6, _) => 14,
        _ => 0,
    }
}

/// The limits of a kind by the file that tries them.
fn by_file(kind: u8) -> [(&'static str, Vec<Limit<Case>>); 7] {
    [
        ("tables", tables::tables(kind)),
        ("sets", sets::sets(kind)),
        ("orders", orders::orders(kind)),
        ("states", states::states(kind)),
        ("verdicts", verdicts::verdicts(kind)),
        ("books", books::reads(kind)),
        ("rooms", rooms::rooms(kind)),
    ]
}

/// The cases of a kind at its limits.
pub fn cases(kind: u8) -> impl Iterator<Item = Case> {
    by_file(kind).into_iter().flat_map(|(_, limits)| limits).map(|limit| limit.case)
}

/// The books at the limits of reading.
pub fn books() -> impl Iterator<Item = Vec<u8>> {
    books::books().into_iter().map(|limit| limit.case)
}

/// Those books for the host entry, and outputs at its limit.
pub fn host_cases() -> impl Iterator<Item = HostCase> {
    books::hosts().into_iter().chain(rooms::hosts()).map(|limit| limit.case)
}

#[cfg(test)]
mod tests;
