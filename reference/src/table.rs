//! Numbers answered, rows, tables, sets of rows, and the checks 1, 2 and 3.

use std::collections::BTreeSet;

pub const MOST_ROWS: usize = 96;
pub const MOST_CORES: u32 = 32;
pub const MOST_TICKS: u32 = 10_000_000;

/// An order entry that holds no row.
pub const NO_ROW: u8 = 255;

/// The numbers answered.
pub mod number {
    pub const DONE: u64 = 0;
    pub const TABLE_LENGTH: u64 = 1;
    pub const CORES: u64 = 2;
    pub const ROW_RANGE: u64 = 3;
    pub const BLOCKED: u64 = 4;
    pub const MALFORMED: u64 = 5;
    pub const ORDER_FAILS: u64 = 6;
    pub const STATE_NOT_SOUND: u64 = 7;
    pub const OUTPUT_SHORT: u64 = 8;
    pub const BOOK_LENGTH: u64 = 9;
    pub const BLOCK_NUMBER: u64 = 10;
    pub const BLOCK_CHECK: u64 = 11;
    pub const EDITION: u64 = 12;
    pub const BOOK_FIELD: u64 = 13;
    pub const MEMBER_PASSES: u64 = 14;
    pub const QUOTA_SPENT: u64 = 15;
    pub const POLICY: u64 = 16;
}

#[derive(Clone, Copy, Debug, PartialEq, Eq)]
pub struct Row {
    pub c: u64,
    pub d: u64,
    pub t: u64,
}

impl Row {
    fn of_words(words: &[u32]) -> Row {
        Row { c: words[0].into(), d: words[1].into(), t: words[2].into() }
    }

    pub fn in_range(&self) -> bool {
        1 <= self.c && self.c <= self.d && self.d <= self.t && self.t <= MOST_TICKS.into()
    }
}

/// A table and its number of cores as a caller lends them, not yet checked.
#[derive(Clone, Debug, PartialEq, Eq)]
pub struct Lent {
    pub words: Vec<u32>,
    pub m: u32,
}

/// A table that has passed the checks 1, 2 and 3.
#[derive(Clone, Debug, PartialEq, Eq)]
pub struct Table {
    pub rows: Vec<Row>,
    pub m: u64,
}

impl Table {
    pub fn n(&self) -> usize {
        self.rows.len()
    }
}

/// A number other than 0 met before the work, with the row that 3 names.
#[derive(Clone, Copy, Debug, PartialEq, Eq)]
pub struct Refusal {
    pub number: u64,
    pub row: u64,
}

impl From<u64> for Refusal {
    fn from(number: u64) -> Refusal {
        Refusal { number, row: 0 }
    }
}

/// One check: goes on if it holds, refuses with the number if not.
pub fn require(holds: bool, number: u64) -> Result<(), Refusal> {
    if holds {
        Ok(())
    } else {
        Err(number.into())
    }
}

impl Lent {
    /// The rows the words make, a last piece of fewer than three left out.
    pub fn n(&self) -> usize {
        self.words.len() / 3
    }

    pub fn checked(&self) -> Result<Table, Refusal> {
        require(self.words.len() % 3 == 0 && self.n() <= MOST_ROWS, number::TABLE_LENGTH)?;
        require((1..=MOST_CORES).contains(&self.m), number::CORES)?;
        let rows: Vec<Row> = self.words.chunks(3).map(Row::of_words).collect();
        match rows.iter().position(|row| !row.in_range()) {
            Some(row) => Err(Refusal { number: number::ROW_RANGE, row: row as u64 }),
            None => Ok(Table { rows, m: self.m.into() }),
        }
    }
}

/// A set of rows as it is lent and answered: row 0 is the lowest bit of `low`.
#[derive(Clone, Copy, Debug, Default, PartialEq, Eq)]
pub struct Mask {
    pub low: u64,
    pub high: u64,
}

impl Mask {
    pub fn of(rows: &BTreeSet<usize>) -> Mask {
        let bits = rows.iter().fold(0u128, |bits, &row| bits | 1 << row);
        Mask { low: bits as u64, high: (bits >> 64) as u64 }
    }

    pub fn rows(self) -> BTreeSet<usize> {
        let bits = u128::from(self.high) << 64 | u128::from(self.low);
        (0..128).filter(|row| bits >> row & 1 == 1).collect()
    }
}

pub fn without(rows: &BTreeSet<usize>, row: usize) -> BTreeSet<usize> {
    rows.iter().copied().filter(|&other| other != row).collect()
}

pub fn all_below(rows: &BTreeSet<usize>, n: usize) -> bool {
    rows.iter().all(|&row| row < n)
}

/// Whether the entries are the rows 0 to n − 1, each once.
pub fn is_permutation(entries: &[u8], n: usize) -> bool {
    let mut sorted: Vec<usize> = entries.iter().map(|&row| row.into()).collect();
    sorted.sort();
    sorted.into_iter().eq(0..n)
}

/// An order's rows as bytes, from the highest level down.
pub fn order_bytes(order: &[usize]) -> Vec<u8> {
    order.iter().map(|&row| row as u8).collect()
}

/// A lent output after the values are stored at its start; later entries stay.
pub fn stored<T: Clone>(output: &[T], values: &[T]) -> Vec<T> {
    [values, &output[values.len()..]].concat()
}

#[cfg(test)]
mod tests {
    use super::*;

    fn refusal(words: &[u32], m: u32) -> (u64, u64) {
        let refusal = Lent { words: words.to_vec(), m }.checked().unwrap_err();
        (refusal.number, refusal.row)
    }

    #[test]
    fn length_comes_before_cores_and_cores_before_rows() {
        assert_eq!(refusal(&[1; 291], 0), (1, 0));
        assert_eq!(refusal(&[0; 4], 0), (1, 0));
        assert_eq!(refusal(&[0; 288], 0), (2, 0));
        assert_eq!(refusal(&[0; 3], 33), (2, 0));
    }

    #[test]
    fn the_lowest_row_out_of_range_is_named() {
        assert_eq!(refusal(&[1, 1, 1, 2, 1, 1, 0, 0, 0], 1), (3, 1));
        assert_eq!(refusal(&[1, 2, 1], 1), (3, 0));
        assert_eq!(refusal(&[1, 1, 10_000_001], 1), (3, 0));
        assert!(Lent { words: vec![1, 1, 10_000_000], m: 32 }.checked().is_ok());
    }

    #[test]
    fn masks_and_rows_are_inverse() {
        let mask = Mask { low: 1 | 1 << 63, high: 1 | 1 << 63 };
        assert_eq!(mask.rows(), BTreeSet::from([0, 63, 64, 127]));
        assert_eq!(Mask::of(&mask.rows()), mask);
    }
}
