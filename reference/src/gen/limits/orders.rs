//! Limits of an order to be checked, and of a policy.

use super::{heavy, light, limit, Limit, FILL, ROW_COUNTS};
use crate::exam::Case;
use crate::table::{order_bytes, MOST_ROWS, NO_ROW};

const ENTRIES: &str = "order: each row once";

/// Rows 0 to n − 1 with the first or the last entry wrong.
pub fn wrong_orders(n: usize) -> Vec<(&'static str, Vec<u8>)> {
    let rows = order_bytes(&(0..n).collect::<Vec<_>>());
    let mut wrong = Vec::new();
    for place in [0, n - 1] {
        let other_end = (n - 1 - place) as u8;
        let values = [("n", n as u8), ("254", 254), ("255", NO_ROW), ("a row twice", other_end)];
        // One row alone has no other to repeat.
        for (at, value) in values.into_iter().filter(|&(_, value)| value != place as u8) {
            let mut order = rows.clone();
            order[place] = value;
            wrong.push((at, order));
        }
    }
    wrong
}

fn check(n: usize, order: Vec<u8>) -> Case {
    Case::CheckOrder { lent: light(n), order }
}

fn entries(n: usize) -> Vec<Limit<Case>> {
    let wrong = |(at, order)| limit(ENTRIES, at, check(n, order), 5);
    let rising: Vec<u8> = (0..n as u8).collect();
    let falling: Vec<u8> = (0..n as u8).rev().collect();
    let mut limits: Vec<Limit<Case>> = wrong_orders(n).into_iter().map(wrong).collect();
    limits.push(limit(ENTRIES, "0 to n − 1", check(n, rising), 0));
    limits.push(limit(ENTRIES, "n − 1 to 0", check(n, falling), 0));
    limits
}

/// Orders whose first n entries are right where there are so many.
fn lengths(n: usize) -> Vec<Limit<Case>> {
    let of_length = |(at, length): (&str, usize)| {
        let order = (0..length).map(|row| if row < n { row as u8 } else { NO_ROW }).collect();
        limit("order: n entries", at, check(n, order), if length == n { 0 } else { 5 })
    };
    let around = [("n", n), ("n − 1", n.wrapping_sub(1)), ("n + 1", n + 1), ("n + 256", n + 256)];
    let mut limits: Vec<Limit<Case>> =
        around.into_iter().filter(|&(_, length)| length < 4096).map(of_length).collect();
    if n != MOST_ROWS {
        limits.push(of_length(("96 with the rest 255", MOST_ROWS)));
    }
    if n > 1 {
        limits.push(of_length(("none", 0)));
    }
    limits
}

/// Of heavy rows only the highest level passes.
fn failing() -> Vec<Limit<Case>> {
    let fails = |n| {
        let case = Case::CheckOrder { lent: heavy(n), order: (0..n as u8).collect() };
        limit(ENTRIES, "0 to n − 1 where level n fails", case, 6)
    };
    [2, 95, MOST_ROWS].map(fails).into()
}

fn policies(n: usize) -> Vec<Limit<Case>> {
    let of_policy = |(at, policy)| {
        let case = Case::Policy { lent: light(n), policy, output: vec![FILL; n] };
        limit("policy from 0 to 2", at, case, if policy <= 2 { 0 } else { 16 })
    };
    [
        ("0", 0),
        ("1", 1),
        ("2", 2),
        ("3", 3),
        ("256", 256),
        ("2^16", 1 << 16),
        ("2^31", 1 << 31),
        ("2^32 − 1", u32::MAX),
    ]
    .map(of_policy)
    .into()
}

pub fn orders(kind: u8) -> Vec<Limit<Case>> {
    let counts = ROW_COUNTS.into_iter();
    match kind {
        4 => [0, 1, MOST_ROWS].into_iter().flat_map(policies).collect(),
        5 => lengths(0)
            .into_iter()
            .chain(counts.flat_map(|n| lengths(n).into_iter().chain(entries(n))))
            .chain(failing())
            .collect(),
        _ => vec![],
    }
}
