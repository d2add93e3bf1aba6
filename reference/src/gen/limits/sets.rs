//! Limits of the row and the set of a single test, and of a group.

use super::{first_rows, heavy, light, limit, Limit, ROW_COUNTS};
use crate::exam::Case;
use crate::table::{Mask, MOST_ROWS};
use std::cmp::Ordering;

/// The ends of the two words of a set and of the table.
const BITS: [usize; 6] = [0, 63, 64, 95, 96, 127];

fn one_row(row: usize) -> Mask {
    Mask::of(&[row].into())
}

/// Single bits: which side of n, the bit, and whether it is a row.
pub fn bits(n: usize) -> Vec<(&'static str, usize, bool)> {
    let side = |bit: usize| match bit.cmp(&n) {
        Ordering::Less => "below n",
        Ordering::Equal => "n",
        Ordering::Greater => "above n",
    };
    [&[n - 1, n, n + 1], &BITS[..]].concat().iter().map(|&bit| (side(bit), bit, bit < n)).collect()
}

fn test(n: usize, k: usize, above: Mask) -> Case {
    Case::Test { lent: light(n), k: k as u32, above }
}

fn row_numbers(n: usize) -> Vec<Limit<Case>> {
    let of_k = |(at, k, number)| limit("row k below n", at, test(n, k, Mask::default()), number);
    [
        ("0", 0, 0),
        ("n − 1", n - 1, 0),
        ("n", n, 5),
        ("n + 1", n + 1, 5),
        ("256", 256, 5),
        ("2^16", 1 << 16, 5),
        ("2^31", 1 << 31, 5),
        ("2^32 − 1", u32::MAX as usize, 5),
    ]
    .map(of_k)
    .into()
}

fn sets_above(n: usize) -> Vec<Limit<Case>> {
    const ABOVE: &str = "set above: rows below n";
    let mut limits = vec![limit(ABOVE, "none", test(n, 0, Mask::default()), 0)];
    for (at, bit, is_row) in bits(n) {
        // The row tested is another one, which a table of one row does not have.
        let k = if bit == 0 { n - 1 } else { 0 };
        if k != bit {
            limits.push(limit(ABOVE, at, test(n, k, one_row(bit)), if is_row { 0 } else { 5 }));
        }
    }
    let all_others = Mask::of(&(1..n).collect());
    limits.push(limit(ABOVE, "all but k", test(n, 0, all_others), 0));
    limits.push(limit(ABOVE, "128 bits but k", test(n, 0, Mask::of(&(1..128).collect())), 5));
    for k in [0, n - 1] {
        limits.push(limit("set above: without k", "with k", test(n, k, one_row(k)), 5));
        limits.push(limit("set above: without k", "all with k", test(n, k, first_rows(n)), 5));
    }
    limits
}

fn group(n: usize, group: Mask) -> Case {
    Case::CheckGroup { lent: light(n), group }
}

/// A light member passes: 14.
fn groups(n: usize) -> Vec<Limit<Case>> {
    const GROUP: &str = "group: rows below n";
    let of_bit =
        |(at, bit, is_row)| limit(GROUP, at, group(n, one_row(bit)), if is_row { 14 } else { 5 });
    let mut limits: Vec<Limit<Case>> = bits(n).into_iter().map(of_bit).collect();
    limits.push(limit(GROUP, "all n rows", group(n, first_rows(n)), 14));
    limits.push(limit(GROUP, "rows 0 to n", group(n, first_rows(n + 1)), 5));
    limits.push(limit(GROUP, "128 bits", group(n, first_rows(128)), 5));
    limits.push(limit("group: not empty", "empty", group(n, Mask::default()), 5));
    limits
}

fn blocked_groups() -> Vec<Limit<Case>> {
    let blocked = |n| {
        let case = Case::CheckGroup { lent: heavy(n), group: first_rows(n) };
        limit("group: rows below n", "all n rows where they are blocked", case, 0)
    };
    [2, 95, MOST_ROWS].map(blocked).into()
}

pub fn sets(kind: u8) -> Vec<Limit<Case>> {
    let counts = ROW_COUNTS.into_iter();
    match kind {
        1 => counts.flat_map(|n| row_numbers(n).into_iter().chain(sets_above(n))).collect(),
        6 => counts.flat_map(groups).chain(blocked_groups()).collect(),
        _ => vec![],
    }
}
