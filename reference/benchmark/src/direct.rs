//! A direct program, book to book: fixed arrays in the search, but each test computes both
//! interferences of every row above anew and sorts the differences.

use reference::book::{book_of, parse, Verdict};
use reference::search::Found;
use reference::table::{Row, Table, MOST_ROWS};
use std::collections::BTreeSet;

fn work(row: &Row, x: u64) -> u64 {
    let whole = x / row.t;
    whole * row.c + row.c.min(x - whole * row.t)
}

fn passes(table: &Table, k: usize, above: u128) -> bool {
    let row = &table.rows[k];
    let cap = row.d - row.c + 1;
    let mut differences = [0u64; MOST_ROWS];
    let mut count = 0;
    let mut total = 0;
    for (number, i) in table.rows.iter().enumerate() {
        if above >> number & 1 == 0 {
            continue;
        }
        let plain = work(i, row.d).min(cap);
        let carry_in = work(i, row.d + i.d - i.c).min(cap);
        differences[count] = carry_in - plain;
        count += 1;
        total += plain;
    }
    let differences = &mut differences[..count];
    differences.sort_unstable_by(|a, b| b.cmp(a));
    total += differences.iter().take(table.m as usize - 1).sum::<u64>();
    row.c + total / table.m <= row.d
}

/// The order from the lowest level up, and the rows that no level was found for.
fn search(table: &Table) -> (Vec<usize>, u128) {
    let n = table.n();
    let mut left = (1 << n) - 1;
    let mut order = Vec::with_capacity(n);
    loop {
        let passing = |k: &usize| left >> k & 1 == 1 && passes(table, *k, left & !(1 << k));
        match (0..n).find(passing) {
            Some(row) => {
                left &= !(1 << row);
                order.push(row);
            }
            None => return (order, left),
        }
    }
}

/// The book with the verdict of the search; none where the book cannot be read.
pub fn host(book: &[u8]) -> Option<Vec<u8>> {
    let lent = parse(book).ok()?.lent;
    let table = lent.checked().ok()?;
    let (mut order, left) = search(&table);
    order.reverse();
    let group: BTreeSet<usize> = (0..table.n()).filter(|row| left >> row & 1 == 1).collect();
    Some(book_of(&lent, &Verdict::of_search(&Found { order, group, tests: 0 })))
}
