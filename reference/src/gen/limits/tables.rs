//! Limits of the table: words, n, m, and the range of a row.

use super::{case_of, light, limit, number_of, Limit};
use crate::exam::Case;
use crate::table::{Lent, Mask, MOST_ROWS, MOST_TICKS};

const OVER: u32 = MOST_TICKS + 1;

fn words(kind: u8) -> Vec<Limit<Case>> {
    const WORDS: &str = "words a multiple of 3";
    let mut limits = Vec::new();
    for n in [1, 95, MOST_ROWS] {
        limits.push(limit(WORDS, "3n", case_of(kind, light(n)), number_of(kind, n)));
    }
    for n in [0, 1, 95, MOST_ROWS] {
        for (at, more) in [("3n + 1", 1), ("3n + 2", 2)] {
            let mut lent = light(n);
            lent.words.resize(3 * n + more, 1);
            limits.push(limit(WORDS, at, case_of(kind, lent), 1));
        }
    }
    limits
}

fn row_counts(kind: u8) -> Vec<Limit<Case>> {
    let of_n = |n: usize| {
        let number = if n > MOST_ROWS { 1 } else { number_of(kind, n) };
        limit("n at most 96", &n.to_string(), case_of(kind, light(n)), number)
    };
    [0, 1, 95, 96, 97, 170].map(of_n).into()
}

fn cores(kind: u8) -> Vec<Limit<Case>> {
    let of_m = |(at, m, legal)| {
        let number = if legal { number_of(kind, 3) } else { 2 };
        limit("m from 1 to 32", at, case_of(kind, Lent { m, ..light(3) }), number)
    };
    [
        ("1", 1, true),
        ("32", 32, true),
        ("0", 0, false),
        ("33", 33, false),
        ("257", 257, false),
        ("2^16 + 1", (1 << 16) + 1, false),
        ("2^31", 1 << 31, false),
        ("2^32 − 1", u32::MAX, false),
    ]
    .map(of_m)
    .into()
}

/// Rows around their range: the limit, the side, the row, and whether it is legal.
pub const ROWS: [(&str, &str, [u32; 3], bool); 18] = [
    ("C at least 1", "1", [1, 1, 1], true),
    ("C at least 1", "0", [0, 1, 1], false),
    ("C at least 1", "C = D = T = 0", [0, 0, 0], false),
    ("C at most D", "D", [7, 7, 9], true),
    ("C at most D", "D + 1", [8, 7, 9], false),
    ("C at most D", "D = 0", [1, 0, 9], false),
    ("C at most D", "2^32 − 1", [u32::MAX, 7, 9], false),
    ("D at most T", "T", [7, 9, 9], true),
    ("D at most T", "T + 1", [7, 10, 9], false),
    ("D at most T", "T = 0", [1, 1, 0], false),
    ("D at most T", "2^32 − 1", [7, u32::MAX, 9], false),
    ("T at most 10,000,000", "10,000,000", [1, 1, MOST_TICKS], true),
    ("T at most 10,000,000", "C = D = T = 10,000,000", [MOST_TICKS; 3], true),
    ("T at most 10,000,000", "10,000,001", [1, 1, OVER], false),
    ("T at most 10,000,000", "D = T = 10,000,001", [1, OVER, OVER], false),
    ("T at most 10,000,000", "C = D = T = 10,000,001", [OVER; 3], false),
    ("T at most 10,000,000", "2^32 − 1", [1, 1, u32::MAX], false),
    ("T at most 10,000,000", "C = D = T = 2^32 − 1", [u32::MAX; 3], false),
];

/// A full table with one row replaced.
pub fn with_row(at: usize, row: [u32; 3]) -> Lent {
    let mut lent = light(MOST_ROWS);
    lent.words[3 * at..3 * at + 3].copy_from_slice(&row);
    lent
}

fn rows(kind: u8) -> Vec<Limit<Case>> {
    let mut limits = Vec::new();
    for (name, at, row, legal) in ROWS {
        let number = if legal { number_of(kind, MOST_ROWS) } else { 3 };
        for place in [0, 42, 95] {
            limits.push(limit(name, at, case_of(kind, with_row(place, row)), number));
        }
    }
    limits
}

/// Breaks all that a case has besides its table.
fn break_own(case: &mut Case) {
    match case {
        Case::Test { lent, k, .. } => *k = lent.n() as u32,
        Case::Search { output, .. } => output.clear(),
        Case::Step { state, .. } => state.placed = u64::MAX,
        Case::Policy { policy, output, .. } => (*policy, *output) = (3, vec![]),
        Case::CheckOrder { order, .. } => order.clear(),
        Case::CheckGroup { group, .. } => *group = Mask::default(),
        Case::WriteBook { verdict, output, .. } => (verdict.number, *output) = (3, vec![]),
        Case::ReadBook { .. } => panic!("a book lends no table"),
    }
}

/// Many faults at once: the first check in document 01's sequence answers.
fn sequence(kind: u8) -> Vec<Limit<Case>> {
    const SEQUENCE: &str = "checks in their order, the rest wrong too";
    let own = [5, 8, 7, 16, 5, 5, 13][usize::from(kind) - 1];
    let of_faults = |(name, at, n, m, c, number)| {
        let mut lent = Lent { m, ..light(n) };
        lent.words[3 * n - 3] = c;
        let mut case = case_of(kind, lent);
        break_own(&mut case);
        limit(name, at, case, number)
    };
    [
        (SEQUENCE, "n 97 with m 33 and C 0", 97, 33, 0, 1),
        (SEQUENCE, "m 33 with C 0", 96, 33, 0, 2),
        (SEQUENCE, "C 0", 96, 32, 0, 3),
        ("all but the table wrong", "n 96", 96, 32, 1, own),
    ]
    .map(of_faults)
    .into()
}

pub fn tables(kind: u8) -> Vec<Limit<Case>> {
    match kind {
        1..=7 => [words(kind), row_counts(kind), cores(kind), rows(kind), sequence(kind)]
            .into_iter()
            .flatten()
            .collect(),
        _ => vec![],
    }
}
