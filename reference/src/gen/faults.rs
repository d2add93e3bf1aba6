//! Malformed inputs: well-formed cases with one to three faults.

use super::rng::Rng;
use crate::book::{book_length, seal, Verdict, BLOCK, ROWS_PER_BLOCK, ROW_BYTES};
use crate::exam::{Case, MOST_LIST_BYTES, MOST_LIST_WORDS};
use crate::search::State;
use crate::table::{Lent, Mask, MOST_ROWS, MOST_TICKS, NO_ROW};

/// Puts one to three faults into a case, often at places that mask one another.
pub fn damage(rng: &Rng, case: &mut Case) {
    for _ in 0..rng.range(1, 3) {
        match table_of(case) {
            Some(lent) if rng.one_in(3) => damage_table(rng, lent),
            _ => damage_own(rng, case),
        }
    }
}

fn table_of(case: &mut Case) -> Option<&mut Lent> {
    match case {
        Case::Test { lent, .. }
        | Case::Search { lent, .. }
        | Case::Step { lent, .. }
        | Case::Policy { lent, .. }
        | Case::CheckOrder { lent, .. }
        | Case::CheckGroup { lent, .. }
        | Case::WriteBook { lent, .. } => Some(lent),
        Case::ReadBook { .. } => None,
    }
}

fn damage_table(rng: &Rng, lent: &mut Lent) {
    match rng.below(8) {
        0 | 1 => damage_length(rng, &mut lent.words),
        2 | 3 => lent.m = wrong_cores(rng, lent.m),
        _ => damage_row(rng, &mut lent.words),
    }
}

fn damage_length(rng: &Rng, words: &mut Vec<u32>) {
    let length = match rng.below(8) {
        0 => words.len() + 1,
        1 => words.len() + 2,
        2 => words.len().saturating_sub(1),
        3 => words.len().saturating_sub(2),
        4 => rng.size(1, 2),
        5 => rng.pick(&[290, 291, 291, 292]),
        6 => rng.size(289, 512),
        _ => rng.pick(&[285, 286, 287, 288, 289]),
    };
    words.resize(length.min(MOST_LIST_WORDS), rng.pick(&[0, 1, MOST_TICKS]));
}

fn wrong_cores(rng: &Rng, m: u32) -> u32 {
    let same_low_byte = m.wrapping_add(rng.pick(&[256, 65536]));
    rng.pick(&[0, 0, 33, 33, 34, 64, 256, 1 << 31, u32::MAX, same_low_byte])
}

fn wrong_row(rng: &Rng, row: [u32; 3]) -> [u32; 3] {
    let [c, d, t] = row;
    let over = MOST_TICKS + 1;
    rng.pick(&[
        [0, d, t],
        [d + 1, d, t],
        [c, c - 1, t],
        [c, t + 1, t],
        [c, d, d - 1],
        [c, d, over],
        [c, over, over],
        [over, over, over],
        [0, 0, 0],
        [c, d, 0],
        [c, 0, t],
        [c, d, u32::MAX],
        [c, u32::MAX, t],
        [u32::MAX, d, t],
        [c, 1 << 31, 1 << 31],
        [t, d, c],
        [d, c, t],
    ])
}

fn damage_row(rng: &Rng, words: &mut [u32]) {
    if words.len() < 3 {
        return;
    }
    let last = words.len() / 3 - 1;
    let row = rng.pick(&[0, last, rng.size(0, last), rng.size(0, last)]);
    // A row that an earlier fault has reached may not be in range to start from.
    let old = [0, 1, 2].map(|word| words[3 * row + word].clamp(1, MOST_TICKS));
    words[3 * row..3 * row + 3].copy_from_slice(&wrong_row(rng, old));
}

fn damage_own(rng: &Rng, case: &mut Case) {
    match case {
        Case::Test { lent, k, above } => damage_test(rng, lent.n(), k, above),
        Case::Search { lent, output } => shorten(rng, output, lent.n()),
        Case::Step { lent, state, .. } => damage_state(rng, lent.n(), state),
        Case::Policy { lent, policy, output } => match rng.below(2) {
            0 => shorten(rng, output, lent.n()),
            _ => *policy = rng.pick(&[3, 3, 4, 255, 256, 257, 65536, 1 << 31, u32::MAX]),
        },
        Case::CheckOrder { lent, order } => damage_order(rng, lent.n(), order),
        Case::CheckGroup { lent, group } => match rng.below(3) {
            0 => *group = Mask::default(),
            _ => *group = with_high_bit(rng, *group, lent.n()),
        },
        Case::WriteBook { lent, verdict, output } => match rng.below(4) {
            0 => shorten(rng, output, book_length(lent.n())),
            _ => damage_verdict(rng, lent.n(), verdict),
        },
        Case::ReadBook { book, output } => damage_read(rng, book, output),
    }
}

/// Cuts a lent output to less than its least length.
fn shorten<T>(rng: &Rng, output: &mut Vec<T>, least: usize) {
    if least > 0 {
        let length = rng.pick(&[least - 1, 0, rng.size(0, least - 1)]);
        output.truncate(length);
    }
}

fn with_bit(mask: Mask, bit: usize) -> Mask {
    let mut rows = mask.rows();
    rows.insert(bit);
    Mask::of(&rows)
}

fn with_high_bit(rng: &Rng, mask: Mask, n: usize) -> Mask {
    let n = n.min(127);
    let bit =
        rng.pick(&[n, n, 127, rng.size(n, 127), rng.size(MOST_ROWS, 127), rng.size(n, n.max(64))]);
    with_bit(mask, bit)
}

fn wrong_row_number(rng: &Rng, n: usize, k: u32) -> u32 {
    let n = n as u32;
    let same_low_byte = k.wrapping_add(rng.pick(&[256, 65536]));
    rng.pick(&[n, n, n + 1, 96, 97, 127, 128, 1 << 31, u32::MAX, same_low_byte])
}

fn damage_test(rng: &Rng, n: usize, k: &mut u32, above: &mut Mask) {
    match rng.below(3) {
        0 => *k = wrong_row_number(rng, n, *k),
        1 => *above = with_high_bit(rng, *above, n),
        _ => *above = with_bit(*above, (*k % 128) as usize),
    }
}

fn wrong_count(rng: &Rng, n: usize, count: u64) -> u64 {
    let n = n as u64;
    let same_low_part = count.wrapping_add(rng.pick(&[256, 1 << 32]));
    rng.pick(&[n + 1, n + 2, 97, 255, 1 << 63, u64::MAX, same_low_part])
}

fn damage_state(rng: &Rng, n: usize, state: &mut State) {
    let n = n.min(MOST_ROWS);
    let placed = state.placed.min(n as u64) as usize;
    match rng.below(8) {
        0 => state.placed = state.placed.wrapping_add(1),
        1 => state.placed = state.placed.wrapping_sub(1),
        2 => state.placed = wrong_count(rng, n, state.placed),
        3 => state.cursor = n as u64 + 1,
        4 => state.cursor = wrong_count(rng, n, state.cursor),
        5 => damage_entry(rng, &mut state.order[..n - placed], n),
        6 => damage_entry(rng, &mut state.order[n..], n),
        _ => damage_entry(rng, &mut state.order[n - placed..n], n),
    }
}

/// Changes one entry, at an end of the entries half of the time.
fn damage_entry(rng: &Rng, entries: &mut [u8], n: usize) {
    let Some(last) = entries.len().checked_sub(1) else { return };
    let at = rng.pick(&[0, last, rng.size(0, last), rng.size(0, last)]);
    let copied = entries[rng.size(0, last)];
    let row = rng.index(n.max(1)) as u8;
    entries[at] = rng.pick(&[copied, copied, row, row, n as u8, n as u8, 0, 96, 254, NO_ROW]);
}

fn damage_order(rng: &Rng, n: usize, order: &mut Vec<u8>) {
    match rng.below(6) {
        0 => order.push(rng.pick(&[n as u8, 0, NO_ROW])),
        1 => order.truncate(order.len().saturating_sub(1)),
        2 => order.truncate(rng.size(0, order.len())),
        3 => order.resize(MOST_ROWS, NO_ROW),
        _ => damage_entry(rng, order, n),
    }
}

fn damage_verdict(rng: &Rng, n: usize, verdict: &mut Verdict) {
    let n = n.min(MOST_ROWS);
    match rng.below(7) {
        0 => verdict.number = rng.pick(&[0, 1, 2, 3, 3, 4, 128, 255]),
        1 | 2 => damage_entry(rng, &mut verdict.order[..n], n),
        3 => damage_entry(rng, &mut verdict.order[n..], n),
        4 => verdict.group = Mask::default(),
        5 => verdict.group = with_bit(verdict.group, rng.index(n.max(1))),
        _ => verdict.group = with_high_bit(rng, verdict.group, n),
    }
}

fn damage_read(rng: &Rng, book: &mut Vec<u8>, output: &mut Vec<u32>) {
    if rng.one_in(8) {
        let n = book.get(4).map_or(0, |&n| n.into());
        return shorten(rng, output, 3 * n);
    }
    if !rng.one_in(6) {
        damage_fields(rng, book);
        if !rng.one_in(4) {
            seal(book);
        }
    }
    if rng.one_in(6) {
        damage_check(rng, book);
    }
    if rng.one_in(8) {
        damage_book_length(rng, book);
    }
}

fn damage_fields(rng: &Rng, book: &mut [u8]) {
    let blocks = book.len() / BLOCK;
    for _ in 0..rng.range(1, 2) {
        match rng.below(8) {
            0..=2 if blocks > 0 => damage_first_block(rng, &mut book[..BLOCK]),
            3 | 4 if blocks > 1 => damage_book_rows(rng, book),
            5 if blocks > 1 => damage_row_filler(rng, book),
            6 if blocks > 0 => damage_block_number(rng, book),
            _ => damage_any_byte(rng, book),
        }
    }
}

fn damage_any_byte(rng: &Rng, book: &mut [u8]) {
    if !book.is_empty() {
        let at = rng.index(book.len());
        book[at] = rng.pick(&[0, 1, 255, book[at] ^ 1, rng.byte()]);
    }
}

fn damage_first_block(rng: &Rng, block: &mut [u8]) {
    let n = block[4];
    let around_n =
        [n.wrapping_add(1), n.wrapping_sub(1), 0, 42, 43, 84, 85, 96, 97, 97, 97, 128, 255];
    let (at, value) = match rng.below(7) {
        0 => (2, rng.pick(&[0, 2, 255])),
        1 => (3, rng.pick(&[0, 33, 255])),
        2 => (4, rng.pick(&around_n)),
        3 => (5, rng.pick(&[0, 1, 2, 3, 255])),
        4 => (rng.size(6, 101), rng.pick(&[0, n.wrapping_sub(1), n, 254, 255, rng.byte()])),
        5 => (rng.size(102, 113), rng.pick(&[0, 1, 128, 255, rng.byte()])),
        _ => (rng.pick(&[114, 509, rng.size(114, 509)]), rng.pick(&[1, 128, 255])),
    };
    block[at] = value;
}

fn row_start(row: usize) -> usize {
    BLOCK * (1 + row / ROWS_PER_BLOCK) + 2 + ROW_BYTES * (row % ROWS_PER_BLOCK)
}

fn damage_book_rows(rng: &Rng, book: &mut [u8]) {
    let rows = ((book.len() / BLOCK - 1) * ROWS_PER_BLOCK).min(book[4].into());
    for _ in 0..rng.size(1, 2).min(rows) {
        let start = row_start(rng.pick(&[0, rows - 1, rng.index(rows)]));
        let bytes = wrong_row(rng, [1, 2, 3]).map(u32::to_be_bytes).concat();
        book[start..start + ROW_BYTES].copy_from_slice(&bytes);
    }
}

fn damage_row_filler(rng: &Rng, book: &mut [u8]) {
    let block = rng.size(1, book.len() / BLOCK - 1);
    let after_rows = row_start(usize::from(book[4])).min(book.len() - 3);
    let at = rng.pick(&[after_rows, BLOCK * block + rng.size(506, 509), BLOCK * block + 509]);
    book[at] = rng.pick(&[1, 128, 255]);
}

fn damage_block_number(rng: &Rng, book: &mut [u8]) {
    let start = BLOCK * rng.index(book.len() / BLOCK);
    let number = book[start + 1];
    let wrong =
        [[0, number.wrapping_add(1)], [0, number.wrapping_sub(1)], [1, number], [number, 0]];
    book[start..start + 2].copy_from_slice(&rng.pick(&wrong));
}

fn damage_check(rng: &Rng, book: &mut [u8]) {
    if book.len() >= BLOCK {
        let at = BLOCK * rng.index(book.len() / BLOCK) + BLOCK - 2;
        let check = u16::from_be_bytes([book[at], book[at + 1]]);
        let near = [check.wrapping_add(1), check.wrapping_sub(1), check.swap_bytes(), !check];
        let wrong = rng.pick(&[near[0], near[1], near[2], near[3], 0, u16::MAX]);
        book[at..at + 2].copy_from_slice(&wrong.to_be_bytes());
    }
}

fn damage_book_length(rng: &Rng, book: &mut Vec<u8>) {
    match rng.below(6) {
        0 => book.truncate(book.len().saturating_sub(rng.size(1, 2))),
        1 => book.push(0),
        2 => book.truncate(rng.pick(&[0, 1, 510, 511, 512])),
        3 => book.truncate(book.len().saturating_sub(BLOCK)),
        4 => append_block(book),
        _ => book.resize(rng.pick(&[512, 1024, 1536, 2047, 2048, 2049, 2560, 4096]), 0),
    }
    book.truncate(MOST_LIST_BYTES);
}

/// One block more, empty but with its right number and check.
pub fn append_block(book: &mut Vec<u8>) {
    let number = book.len() / BLOCK;
    let start = BLOCK * number;
    book.resize(start + BLOCK, 0);
    book[start + 1] = number as u8;
    seal(&mut book[start..]);
}
