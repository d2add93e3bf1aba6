//! Limits of the outputs lent: none, a byte or word short, enough, one more.

use super::tables::with_row;
use super::{heavy, light, limit, Limit, FILL, ROW_COUNTS};
use crate::book::{book_length, book_of, Verdict};
use crate::exam::Case;
use crate::examine::HostCase;
use crate::table::{Lent, MOST_ROWS};

/// Lengths around the least one: where they stand, the length, and whether it is enough.
fn lengths(least: usize) -> Vec<(&'static str, usize, bool)> {
    let mut lengths = vec![("the least", least, true), ("the least + 1", least + 1, true)];
    if least > 0 {
        lengths.push(("none", 0, false));
        lengths.push(("the least − 1", least - 1, false));
    }
    lengths
}

fn around<C>(
    name: &'static str,
    least: usize,
    done: u64,
    case: impl Fn(usize) -> C,
) -> Vec<Limit<C>> {
    let number = |enough| if enough { done } else { 8 };
    let of_length = |(at, length, enough)| limit(name, at, case(length), number(enough));
    lengths(least).into_iter().map(of_length).collect()
}

fn bytes(length: usize) -> Vec<u8> {
    vec![FILL; length]
}

/// The room that a kind needs for a table, `found` being what the search answers for it.
fn of_table(kind: u8, lent: &Lent, found: u64) -> Vec<Limit<Case>> {
    let n = lent.n();
    let lent = || lent.clone();
    match kind {
        2 => around("output: n bytes", n, found, |length| Case::Search {
            lent: lent(),
            output: bytes(length),
        }),
        4 => around("output: n bytes", n, 0, |length| Case::Policy {
            lent: lent(),
            policy: 2,
            output: bytes(length),
        }),
        7 => around("output: the book's bytes", book_length(n), 0, |length| Case::WriteBook {
            lent: lent(),
            verdict: Verdict::none(),
            output: bytes(length),
        }),
        8 => around("output: 3n words", 3 * n, 0, |length| Case::ReadBook {
            book: book_of(&lent(), &Verdict::none()),
            output: vec![7; length],
        }),
        _ => vec![],
    }
}

const JUDGED_LAST: &str = "output judged last";

/// A book whose last row is out of range.
fn unreadable() -> Vec<u8> {
    book_of(&with_row(MOST_ROWS - 1, [0, 1, 1]), &Verdict::none())
}

/// No rows and light ones; for the search blocked ones too, which store nothing.
pub fn rooms(kind: u8) -> Vec<Limit<Case>> {
    let light_counts = [0].into_iter().chain(ROW_COUNTS);
    let mut limits: Vec<Limit<Case>> =
        light_counts.flat_map(|n| of_table(kind, &light(n), 0)).collect();
    if kind == 2 {
        let blocked = [2, 96].into_iter().flat_map(|n| of_table(kind, &heavy(n), 4));
        limits.extend(blocked.map(|limit| Limit { limit: "output: n bytes, blocked", ..limit }));
    }
    if kind == 8 {
        let case = Case::ReadBook { book: unreadable(), output: vec![] };
        limits.push(limit(JUDGED_LAST, "none with C 0", case, 3));
    }
    limits
}

fn host(lent: Lent, name: &'static str, found: u64) -> Vec<Limit<HostCase>> {
    let book = book_of(&lent, &Verdict::none());
    around(name, book.len(), found, |length| HostCase { book: book.clone(), output: bytes(length) })
}

pub fn hosts() -> Vec<Limit<HostCase>> {
    let light_counts = [0].into_iter().chain(ROW_COUNTS);
    let placed = light_counts.flat_map(|n| host(light(n), "output: the book's bytes", 0));
    let blocked = [2, 96].map(|n| host(heavy(n), "output: the book's bytes, blocked", 4));
    let refused = HostCase { book: unreadable(), output: vec![] };
    let refused = limit(JUDGED_LAST, "none with C 0", refused, 3);
    placed.chain(blocked.into_iter().flatten()).chain([refused]).collect()
}
