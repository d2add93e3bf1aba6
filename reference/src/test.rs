//! The test of one task.

use crate::table::{all_below, number, require, Lent, Mask, Refusal, Row, Table};
use std::collections::BTreeSet;

/// Work of a row in a length of x ticks.
pub fn work(row: &Row, x: u64) -> u64 {
    let whole = x / row.t;
    whole * row.c + row.c.min(x - whole * row.t)
}

fn cap(k: &Row) -> u64 {
    k.d - k.c + 1
}

fn plain(i: &Row, k: &Row) -> u64 {
    work(i, k.d).min(cap(k))
}

fn carry_in(i: &Row, k: &Row) -> u64 {
    work(i, k.d + i.d - i.c).min(cap(k))
}

/// The sum of the plain interferences and the largest differences, one for each carry-in.
fn interference(table: &Table, k: &Row, above: &BTreeSet<usize>, carry_ins: usize) -> u64 {
    let rows: Vec<&Row> = above.iter().map(|&row| &table.rows[row]).collect();
    let plain_sum: u64 = rows.iter().map(|i| plain(i, k)).sum();
    let mut differences: Vec<u64> = rows.iter().map(|i| carry_in(i, k) - plain(i, k)).collect();
    differences.sort_by(|a, b| b.cmp(a));
    plain_sum + differences.iter().take(carry_ins).sum::<u64>()
}

/// The carry-ins that the test counts.
pub fn carry_ins(table: &Table) -> usize {
    table.m as usize - 1
}

/// `used` of row k with the set of rows above it.
pub fn used(table: &Table, k: usize, above: &BTreeSet<usize>) -> u64 {
    used_with(table, k, above, carry_ins(table))
}

pub fn passes(table: &Table, k: usize, above: &BTreeSet<usize>) -> bool {
    passes_with(table, k, above, carry_ins(table))
}

fn used_with(table: &Table, k: usize, above: &BTreeSet<usize>, carry_ins: usize) -> u64 {
    let row = &table.rows[k];
    row.c + interference(table, row, above, carry_ins) / table.m
}

/// The test with another number of carry-ins.
pub fn passes_with(table: &Table, k: usize, above: &BTreeSet<usize>, carry_ins: usize) -> bool {
    used_with(table, k, above, carry_ins) <= table.rows[k].d
}

#[derive(Clone, Debug, Default, PartialEq, Eq)]
pub struct TestAnswer {
    pub number: u64,
    pub row: u64,
    pub passes: bool,
    pub used: u64,
}

fn admitted(lent: &Lent, k: u32, above: &BTreeSet<usize>) -> Result<Table, Refusal> {
    let table = lent.checked()?;
    let k = k as usize;
    let well_formed = k < table.n() && all_below(above, table.n()) && !above.contains(&k);
    require(well_formed, number::MALFORMED)?;
    Ok(table)
}

/// The single test of row k with the set above it.
pub fn single_test(lent: &Lent, k: u32, above: Mask) -> TestAnswer {
    let above = above.rows();
    match admitted(lent, k, &above) {
        Err(Refusal { number, row }) => TestAnswer { number, row, ..Default::default() },
        Ok(table) => TestAnswer {
            number: number::DONE,
            row: 0,
            passes: passes(&table, k as usize, &above),
            used: used(&table, k as usize, &above),
        },
    }
}

#[cfg(test)]
mod tests {
    use super::*;
    use crate::known;

    #[test]
    fn work_of_whole_and_part_periods() {
        let row = Row { c: 2, d: 5, t: 5 };
        let works: Vec<u64> = [0, 1, 2, 4, 5, 6, 7, 10].iter().map(|&x| work(&row, x)).collect();
        assert_eq!(works, [0, 1, 2, 2, 2, 3, 4, 4]);
    }

    #[test]
    fn malformed_rows_and_sets_are_5() {
        let lent = known::k(4);
        let number_of = |k, low, high| single_test(&lent, k, Mask { low, high }).number;
        assert_eq!(number_of(0, 6, 0), 0);
        assert_eq!(number_of(3, 1, 0), 5);
        assert_eq!(number_of(0, 1, 0), 5);
        assert_eq!(number_of(0, 8, 0), 5);
        assert_eq!(number_of(0, 0, 1 << 63), 5);
        assert_eq!(single_test(&known::k(1), 0, Mask::default()).number, 5);
    }

    #[test]
    fn bits_from_96_on_are_malformed_for_96_rows_too() {
        let lent = Lent { words: [1, 1, 1].repeat(96), m: 1 };
        assert_eq!(single_test(&lent, 0, Mask { low: 0, high: 1 << 31 }).number, 0);
        assert_eq!(single_test(&lent, 0, Mask { low: 0, high: 1 << 32 }).number, 5);
    }

    #[test]
    fn the_differences_are_taken_after_the_caps() {
        // Row 0 has the larger carry-in (6 of 6, plain 6), row 1 the larger difference.
        let words = vec![9, 9, 9, 2, 10, 10, 5, 10, 10];
        let answer = single_test(&Lent { words, m: 2 }, 2, Mask { low: 3, high: 0 });
        // Plain 6 + 2; carry-in of row 1: w(18) = 4, difference 2; used = 5 + 10 / 2.
        assert_eq!((answer.passes, answer.used), (true, 10));
    }
}
