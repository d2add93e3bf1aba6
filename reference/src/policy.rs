//! The three priority heuristics.

use crate::table::{number, order_bytes, require, stored, Lent, Refusal, Row, Table};
use std::cmp::Ordering;

/// Rises with x and squares its size, so it keeps comparisons of either sign.
fn signed_square(x: i128) -> i128 {
    x * x.abs()
}

/// Compares D − kC of two rows, k = (m − 1 + √(5m² − 6m + 1)) / (2m).
fn compare_dkc(m: u64, a: &Row, b: &Row) -> Ordering {
    let m = i128::from(m);
    let c = i128::from(a.c) - i128::from(b.c);
    let d = i128::from(a.d) - i128::from(b.d);
    // 2m times the difference of the keys is 2m·d − (m − 1)·c − root·c.
    let whole = 2 * m * d - (m - 1) * c;
    let root_squared = 5 * m * m - 6 * m + 1;
    signed_square(whole).cmp(&(root_squared * signed_square(c)))
}

fn compare_keys(policy: u32, m: u64, a: &Row, b: &Row) -> Ordering {
    match policy {
        0 => a.d.cmp(&b.d),
        1 => (a.d - a.c).cmp(&(b.d - b.c)),
        _ => compare_dkc(m, a, b),
    }
}

/// The rows from the highest level down.
pub fn proposed(table: &Table, policy: u32) -> Vec<usize> {
    let rows = &table.rows;
    let mut order: Vec<usize> = (0..table.n()).collect();
    order.sort_by(|&i, &j| compare_keys(policy, table.m, &rows[i], &rows[j]).then(i.cmp(&j)));
    order
}

#[derive(Clone, Debug, PartialEq, Eq)]
pub struct PolicyAnswer {
    pub number: u64,
    pub row: u64,
    pub output: Vec<u8>,
}

fn admitted(lent: &Lent, policy: u32, room: usize) -> Result<Table, Refusal> {
    let table = lent.checked()?;
    require(policy <= 2, number::POLICY)?;
    require(table.n() <= room, number::OUTPUT_SHORT)?;
    Ok(table)
}

/// The order that a policy proposes.
pub fn propose(lent: &Lent, policy: u32, output: &[u8]) -> PolicyAnswer {
    match admitted(lent, policy, output.len()) {
        Err(Refusal { number, row }) => PolicyAnswer { number, row, output: output.to_vec() },
        Ok(table) => {
            let order = order_bytes(&proposed(&table, policy));
            PolicyAnswer { number: number::DONE, row: 0, output: stored(output, &order) }
        }
    }
}

#[cfg(test)]
mod tests {
    use super::*;

    fn dkc(m: u32, rows: [[u32; 3]; 2]) -> Vec<u8> {
        propose(&Lent { words: rows.concat(), m }, 2, &[9; 2]).output
    }

    #[test]
    fn equal_keys_go_by_row_number() {
        // k is 0, 1 and 3/2 for these m.
        assert_eq!(dkc(1, [[9, 10, 10], [1, 10, 10]]), [0, 1]);
        assert_eq!(dkc(2, [[1, 5, 10], [3, 7, 10]]), [0, 1]);
        assert_eq!(dkc(10, [[1, 5, 10], [3, 8, 10]]), [0, 1]);
    }

    #[test]
    fn keys_of_both_signs_compare() {
        assert_eq!(dkc(10, [[1, 5, 10], [4, 8, 10]]), [1, 0]);
        assert_eq!(dkc(10, [[4, 8, 10], [1, 5, 10]]), [0, 1]);
        assert_eq!(dkc(10, [[9, 9, 10], [1, 2, 10]]), [0, 1]);
        assert_eq!(dkc(1, [[9, 10, 10], [1, 9, 10]]), [1, 0]);
    }

    #[test]
    fn policy_comes_after_rows_and_before_room() {
        let number = |words: &[u32], policy, output: &[u8]| {
            propose(&Lent { words: words.to_vec(), m: 1 }, policy, output).number
        };
        assert_eq!(number(&[2, 1, 1], 3, &[]), 3);
        assert_eq!(number(&[1, 1, 1], 3, &[]), 16);
        assert_eq!(number(&[1, 1, 1], 2, &[]), 8);
        assert_eq!(number(&[], 2, &[]), 0);
    }
}
