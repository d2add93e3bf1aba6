//! Limits of a book to be read, the same for the reader, the host entry and the listing.

use super::tables::{with_row, ROWS};
use super::verdicts::{forms, forms_without_rows};
use super::{light, limit, Limit, FILL};
use crate::book::{book_of, seal, Verdict, BLOCK, MOST_BLOCKS, ROWS_PER_BLOCK, ROW_BYTES};
use crate::exam::{Case, MOST_LIST_BYTES};
use crate::examine::HostCase;
use crate::gen::faults::append_block;
use crate::gen::systematic::books_of_full_sum;
use crate::table::{all_below, Lent, MOST_ROWS};

type BookLimit = Limit<Vec<u8>>;

/// Row counts at both ends of every length of a book.
const ROW_COUNTS: [usize; 8] = [0, 1, 42, 43, 84, 85, 95, 96];

fn book(n: usize) -> Vec<u8> {
    book_of(&light(n), &Verdict::none())
}

/// The book with one byte changed and the checks made right again.
fn with_byte(mut book: Vec<u8>, at: usize, value: u8) -> Vec<u8> {
    book[at] = value;
    seal(&mut book);
    book
}

/// The longest book cut, or continued with zeros.
fn lengths() -> Vec<BookLimit> {
    let of_length = |length: usize| {
        let mut book = book(MOST_ROWS);
        book.resize(length, 0);
        let number = if length == BLOCK * MOST_BLOCKS { 0 } else { 9 };
        limit("length: 1 to 4 blocks of 512", &length.to_string(), book, number)
    };
    let around = [0, 1, 511, 513, 1023, 1025, 1535, 1537, 2047, 2048, 2049, 2560, MOST_LIST_BYTES];
    around.map(of_length).into()
}

fn lengths_for(n: usize) -> Vec<BookLimit> {
    const LENGTH: &str = "length: the blocks that n needs";
    let mut a_block_more = book(n);
    append_block(&mut a_block_more);
    let mut limits = vec![
        limit(LENGTH, &book(n).len().to_string(), book(n), 0),
        limit(LENGTH, "a byte more", [&book(n)[..], &[0]].concat(), 9),
        limit(LENGTH, "a byte less", book(n)[..book(n).len() - 1].to_vec(), 9),
        limit(LENGTH, "a block more", a_block_more, 9),
    ];
    if n > 0 {
        limits.push(limit(LENGTH, "a block less", book(n)[..book(n).len() - BLOCK].to_vec(), 9));
    }
    limits
}

fn block_numbers(block: usize) -> Vec<BookLimit> {
    let right = block as u16;
    let of_number = |(at, number): (&str, u16)| {
        let mut book = book(MOST_ROWS);
        book[BLOCK * block..BLOCK * block + 2].copy_from_slice(&number.to_be_bytes());
        seal(&mut book);
        limit("block number: from 0, by one", at, book, 10)
    };
    [
        ("one more", right + 1),
        ("one less", right.wrapping_sub(1)),
        ("256 more", right + 256),
        ("0xFFFF", u16::MAX),
    ]
    .map(of_number)
    .into()
}

const CHECK: &str = "block check: 0xFFFF less the sum";

fn with_check(mut book: Vec<u8>, block: usize, check: u16) -> Vec<u8> {
    let end = BLOCK * (block + 1);
    book[end - 2..end].copy_from_slice(&check.to_be_bytes());
    book
}

fn checks(block: usize) -> Vec<BookLimit> {
    let book = book(MOST_ROWS);
    let end = BLOCK * (block + 1);
    let right = u16::from_be_bytes([book[end - 2], book[end - 1]]);
    let of_check = |(at, check)| limit(CHECK, at, with_check(book.clone(), block, check), 11);
    [
        ("one more", right + 1),
        ("one less", right - 1),
        ("the sum", 0xFFFF - right),
        ("bytes exchanged", right.swap_bytes()),
        ("0", 0),
        ("0xFFFF", u16::MAX),
    ]
    .map(of_check)
    .into()
}

/// Blocks of sum 0xFFFF; the rows behind the first block have no part in its sum.
fn full_sums() -> Vec<BookLimit> {
    let [(row, order), (first, group)] = books_of_full_sum();
    let first = Lent { m: first.m, ..light(first.n()) };
    let books = [(book_of(&row, &order), 1), (book_of(&first, &group), 0)];
    let both_checks = |(book, block): (Vec<u8>, usize)| {
        let other = with_check(book.clone(), block, u16::MAX);
        [
            limit(CHECK, "0 for sum 0xFFFF", book, 0),
            limit(CHECK, "0xFFFF for sum 0xFFFF", other, 11),
        ]
    };
    books.map(both_checks).into_iter().flatten().collect()
}

/// Bytes of the first block: edition, m, and n where the length does not tell it.
fn heads() -> Vec<BookLimit> {
    const EDITION: &str = "edition 1";
    const CORES: &str = "m from 1 to 32";
    const COUNT: &str = "n at most 96";
    let of_byte = |(name, place, value, number): (&'static str, usize, u8, u64)| {
        let book = with_byte(book(MOST_ROWS), place, value);
        limit(name, &value.to_string(), book, number)
    };
    [
        (EDITION, 2, 1, 0),
        (EDITION, 2, 0, 12),
        (EDITION, 2, 2, 12),
        (EDITION, 2, 255, 12),
        (CORES, 3, 1, 0),
        (CORES, 3, 32, 0),
        (CORES, 3, 0, 2),
        (CORES, 3, 33, 2),
        (CORES, 3, 255, 2),
        (COUNT, 4, 96, 0),
        (COUNT, 4, 97, 1),
        (COUNT, 4, 255, 1),
    ]
    .map(of_byte)
    .into()
}

/// n one off: of another length, with a row of zeros, or with a row where fillers should be.
fn counts() -> Vec<BookLimit> {
    const COUNT: &str = "n: as many rows as stand";
    let mut limits = Vec::new();
    for (n, written) in [(0, 1), (1, 0), (42, 43), (43, 42), (84, 85), (85, 84)] {
        let at = "one off and of another length";
        limits.push(limit(COUNT, at, with_byte(book(n), 4, written), 9));
    }
    for n in [1, 41, 43, 83, 85, 95] {
        limits.push(limit(COUNT, "one more", with_byte(book(n), 4, n as u8 + 1), 3));
    }
    for n in [2, 42, 44, 84, 86, 96] {
        limits.push(limit(COUNT, "one less", with_byte(book(n), 4, n as u8 - 1), 13));
    }
    limits
}

fn verdicts() -> Vec<BookLimit> {
    let of_n = |n| if n == 0 { forms_without_rows() } else { forms(n) };
    let mut limits = Vec::new();
    for n in [0, 1, 64, 95, MOST_ROWS] {
        for (name, at, verdict, legal) in of_n(n) {
            // A book has no place for bits above row 95.
            if all_below(&verdict.group.rows(), MOST_ROWS) {
                let book = book_of(&light(n), &verdict);
                limits.push(limit(name, at, book, if legal { 0 } else { 13 }));
            }
        }
    }
    limits
}

/// The first and the last filler byte of each block.
fn filler_places(n: usize) -> Vec<usize> {
    let of_block = |block: usize| {
        let rows = (n - ROWS_PER_BLOCK * block).min(ROWS_PER_BLOCK);
        let start = BLOCK * (block + 1);
        [start + 2 + ROW_BYTES * rows, start + 509]
    };
    [114, 509].into_iter().chain((0..n.div_ceil(ROWS_PER_BLOCK)).flat_map(of_block)).collect()
}

fn fillers(n: usize) -> Vec<BookLimit> {
    const FILLER: &str = "fillers 0";
    let mut limits = Vec::new();
    for place in filler_places(n) {
        for value in [1, 128, 255] {
            limits.push(limit(FILLER, "not 0", with_byte(book(n), place, value), 13));
        }
        let mut unsealed = book(n);
        unsealed[place] = 1;
        limits.push(limit(FILLER, "not 0 under the old check", unsealed, 11));
    }
    limits
}

fn rows() -> Vec<BookLimit> {
    let mut limits = Vec::new();
    for (name, at, row, legal) in ROWS {
        for place in [0, 41, 42, 95] {
            let book = book_of(&with_row(place, row), &Verdict::none());
            limits.push(limit(name, at, book, if legal { 0 } else { 3 }));
        }
    }
    limits
}

pub fn books() -> Vec<BookLimit> {
    let mut limits = lengths();
    limits.extend(ROW_COUNTS.into_iter().flat_map(lengths_for));
    limits.extend((0..MOST_BLOCKS).flat_map(block_numbers));
    limits.extend((0..MOST_BLOCKS).flat_map(checks));
    limits.extend([full_sums(), heads(), counts(), verdicts()].into_iter().flatten());
    limits.extend([0, 1, 42, 43, MOST_ROWS].into_iter().flat_map(fillers));
    limits.extend(rows());
    limits
}

fn with_case<C>(from: BookLimit, case: impl Fn(Vec<u8>) -> C) -> Limit<C> {
    Limit { limit: from.limit, at: from.at, case: case(from.case), number: from.number }
}

pub fn reads(kind: u8) -> Vec<Limit<Case>> {
    let read = |book| Case::ReadBook { book, output: vec![7; 3 * MOST_ROWS] };
    match kind {
        8 => books().into_iter().map(|limit| with_case(limit, read)).collect(),
        _ => vec![],
    }
}

pub fn hosts() -> Vec<Limit<HostCase>> {
    let host = |book: Vec<u8>| HostCase { output: vec![FILL; book.len()], book };
    books().into_iter().map(|limit| with_case(limit, host)).collect()
}
