//! The timing book: writing, reading and the block check.

use crate::search::Found;
use crate::table::{
    all_below, is_permutation, number, require, stored, Lent, Mask, Refusal, MOST_CORES, MOST_ROWS,
    NO_ROW,
};
use std::collections::BTreeSet;

pub const BLOCK: usize = 512;
pub const MOST_BLOCKS: usize = 4;
pub const ROWS_PER_BLOCK: usize = 42;
pub const ROW_BYTES: usize = 12;
const CHECK_AT: usize = 510;
const ORDER_AT: usize = 6;
const GROUP_AT: usize = 102;
const GROUP_BYTES: usize = 12;
const EDITION_1: u8 = 1;

/// A verdict as it stands in block 0.
#[derive(Clone, Debug, PartialEq, Eq)]
pub struct Verdict {
    pub number: u8,
    pub order: [u8; MOST_ROWS],
    pub group: Mask,
}

impl Verdict {
    pub fn none() -> Verdict {
        Verdict { number: 0, order: [NO_ROW; MOST_ROWS], group: Mask::default() }
    }

    pub fn order(rows: &[usize]) -> Verdict {
        let mut verdict = Verdict { number: 1, ..Verdict::none() };
        for (entry, &row) in verdict.order.iter_mut().zip(rows) {
            *entry = row as u8;
        }
        verdict
    }

    pub fn blocked(group: &BTreeSet<usize>) -> Verdict {
        Verdict { number: 2, group: Mask::of(group), ..Verdict::none() }
    }

    pub fn of_search(found: &Found) -> Verdict {
        if found.group.is_empty() {
            Verdict::order(&found.order)
        } else {
            Verdict::blocked(&found.group)
        }
    }

    pub fn has_legal_form(&self, n: usize) -> bool {
        let group = self.group.rows();
        let no_order = self.order.iter().all(|&entry| entry == NO_ROW);
        let (rows, rest) = self.order.split_at(n);
        match self.number {
            0 => no_order && group.is_empty(),
            1 => {
                is_permutation(rows, n)
                    && rest.iter().all(|&entry| entry == NO_ROW)
                    && group.is_empty()
            }
            2 => no_order && !group.is_empty() && all_below(&group, n),
            _ => false,
        }
    }
}

/// The bytes of a book of n rows.
pub fn book_length(n: usize) -> usize {
    BLOCK * (1 + (n + ROWS_PER_BLOCK - 1) / ROWS_PER_BLOCK)
}

/// The check that belongs to a block, whatever stands in its last two bytes.
pub fn check_of(block: &[u8]) -> u16 {
    let words =
        block[..CHECK_AT].chunks(2).map(|word| u64::from(word[0]) << 8 | u64::from(word[1]));
    let total: u64 = words.sum();
    // A ones' complement sum is the total modulo 0xFFFF, 0 only if every word is 0.
    let sum = if total == 0 { 0 } else { 1 + (total - 1) % 0xFFFF };
    0xFFFF - sum as u16
}

/// Gives every block of the book its right check.
pub fn seal(book: &mut [u8]) {
    for block in book.chunks_exact_mut(BLOCK) {
        let check = check_of(block);
        block[CHECK_AT..].copy_from_slice(&check.to_be_bytes());
    }
}

fn group_bytes(group: Mask) -> [u8; GROUP_BYTES] {
    let mut bytes = [0; GROUP_BYTES];
    for row in group.rows() {
        bytes[row / 8] |= 1 << (row % 8);
    }
    bytes
}

fn group_of_bytes(bytes: &[u8]) -> Mask {
    let has = |row: &usize| bytes[row / 8] >> (row % 8) & 1 == 1;
    Mask::of(&(0..8 * GROUP_BYTES).filter(has).collect())
}

fn first_block(m: u8, n: u8, verdict: &Verdict) -> Vec<u8> {
    let mut block = vec![0, 0, EDITION_1, m, n, verdict.number];
    block.extend(verdict.order);
    block.extend(group_bytes(verdict.group));
    block.resize(BLOCK, 0);
    block
}

fn row_block(number: u16, words: &[u32]) -> Vec<u8> {
    let mut block = number.to_be_bytes().to_vec();
    block.extend(words.iter().flat_map(|word| word.to_be_bytes()));
    block.resize(BLOCK, 0);
    block
}

/// The book of a table and a verdict that have passed the checks of writing.
pub fn book_of(lent: &Lent, verdict: &Verdict) -> Vec<u8> {
    let mut book = first_block(lent.m as u8, lent.n() as u8, verdict);
    for (number, words) in (1..).zip(lent.words.chunks(3 * ROWS_PER_BLOCK)) {
        book.extend(row_block(number, words));
    }
    seal(&mut book);
    book
}

#[derive(Clone, Debug, PartialEq, Eq)]
pub struct WriteAnswer {
    pub number: u64,
    pub row: u64,
    pub output: Vec<u8>,
}

fn written(lent: &Lent, verdict: &Verdict, room: usize) -> Result<Vec<u8>, Refusal> {
    let table = lent.checked()?;
    require(verdict.has_legal_form(table.n()), number::BOOK_FIELD)?;
    require(book_length(table.n()) <= room, number::OUTPUT_SHORT)?;
    Ok(book_of(lent, verdict))
}

pub fn write(lent: &Lent, verdict: &Verdict, output: &[u8]) -> WriteAnswer {
    match written(lent, verdict, output.len()) {
        Err(Refusal { number, row }) => WriteAnswer { number, row, output: output.to_vec() },
        Ok(book) => WriteAnswer { number: number::DONE, row: 0, output: stored(output, &book) },
    }
}

/// What a readable book holds.
#[derive(Clone, Debug, PartialEq, Eq)]
pub struct Book {
    pub lent: Lent,
    pub verdict: Verdict,
}

/// A refusal of reading, with the block that 10 and 11 name.
#[derive(Clone, Copy, Debug, PartialEq, Eq)]
pub struct BookRefusal {
    pub number: u64,
    pub row: u64,
    pub block: u64,
}

impl From<Refusal> for BookRefusal {
    fn from(Refusal { number, row }: Refusal) -> BookRefusal {
        BookRefusal { number, row, block: 0 }
    }
}

fn check_blocks(book: &[u8]) -> Result<(), BookRefusal> {
    for (index, block) in book.chunks(BLOCK).enumerate() {
        let refusal = |number| BookRefusal { number, row: 0, block: index as u64 };
        if block[..2] != (index as u16).to_be_bytes() {
            return Err(refusal(number::BLOCK_NUMBER));
        }
        if block[CHECK_AT..] != check_of(block).to_be_bytes() {
            return Err(refusal(number::BLOCK_CHECK));
        }
    }
    Ok(())
}

fn verdict_of(first: &[u8]) -> Verdict {
    Verdict {
        number: first[5],
        order: first[ORDER_AT..GROUP_AT].try_into().expect("the order has 96 bytes"),
        group: group_of_bytes(&first[GROUP_AT..GROUP_AT + GROUP_BYTES]),
    }
}

/// Bytes of the row blocks without number and check, cut at the end of the rows.
fn row_and_filler_bytes(book: &[u8], n: usize) -> (Vec<u8>, Vec<u8>) {
    let (mut rows, mut filler) = (Vec::new(), Vec::new());
    for (index, block) in book.chunks(BLOCK).skip(1).enumerate() {
        let rows_here = (n - index * ROWS_PER_BLOCK).min(ROWS_PER_BLOCK);
        let (used, unused) = block[2..CHECK_AT].split_at(ROW_BYTES * rows_here);
        rows.extend(used);
        filler.extend(unused);
    }
    filler.extend(&book[GROUP_AT + GROUP_BYTES..CHECK_AT]);
    (rows, filler)
}

fn words_of_bytes(bytes: &[u8]) -> Vec<u32> {
    let word = |bytes: &[u8]| u32::from_be_bytes(bytes.try_into().expect("a word has 4 bytes"));
    bytes.chunks(4).map(word).collect()
}

/// Reading, all checks but the room.
pub fn parse(book: &[u8]) -> Result<Book, BookRefusal> {
    let whole_blocks = book.len() % BLOCK == 0;
    let blocks = book.len() / BLOCK;
    require(whole_blocks && (1..=MOST_BLOCKS).contains(&blocks), number::BOOK_LENGTH)?;
    check_blocks(book)?;
    let (edition, m, n) = (book[2], u32::from(book[3]), usize::from(book[4]));
    require(edition == EDITION_1, number::EDITION)?;
    require((1..=MOST_CORES).contains(&m), number::CORES)?;
    require(n <= MOST_ROWS, number::TABLE_LENGTH)?;
    require(book.len() == book_length(n), number::BOOK_LENGTH)?;
    let verdict = verdict_of(book);
    let (rows, filler) = row_and_filler_bytes(book, n);
    let zero_filler = filler.iter().all(|&byte| byte == 0);
    require(verdict.has_legal_form(n) && zero_filler, number::BOOK_FIELD)?;
    let lent = Lent { words: words_of_bytes(&rows), m };
    lent.checked()?;
    Ok(Book { lent, verdict })
}

#[derive(Clone, Debug, PartialEq, Eq)]
pub struct ReadAnswer {
    pub number: u64,
    pub row: u64,
    pub block: u64,
    pub m: u64,
    pub n: u64,
    pub verdict: u64,
    pub group: Mask,
    pub order: [u8; MOST_ROWS],
    pub output: Vec<u32>,
}

impl ReadAnswer {
    fn refused(refusal: BookRefusal, output: &[u32]) -> ReadAnswer {
        ReadAnswer {
            number: refusal.number,
            row: refusal.row,
            block: refusal.block,
            m: 0,
            n: 0,
            verdict: 0,
            group: Mask::default(),
            order: [NO_ROW; MOST_ROWS],
            output: output.to_vec(),
        }
    }

    fn done(book: &Book, output: &[u32]) -> ReadAnswer {
        ReadAnswer {
            number: number::DONE,
            row: 0,
            block: 0,
            m: book.lent.m.into(),
            n: book.lent.n() as u64,
            verdict: book.verdict.number.into(),
            group: book.verdict.group,
            order: book.verdict.order,
            output: stored(output, &book.lent.words),
        }
    }
}

fn read_with_room(book: &[u8], room: usize) -> Result<Book, BookRefusal> {
    let book = parse(book)?;
    require(book.lent.words.len() <= room, number::OUTPUT_SHORT)?;
    Ok(book)
}

pub fn read(book: &[u8], output: &[u32]) -> ReadAnswer {
    match read_with_room(book, output.len()) {
        Err(refusal) => ReadAnswer::refused(refusal, output),
        Ok(book) => ReadAnswer::done(&book, output),
    }
}

#[cfg(test)]
mod tests {
    use super::*;

    /// RFC 1071 as it is usually written: end-around carries folded in.
    fn folded(block: &[u8]) -> u16 {
        let words =
            block[..CHECK_AT].chunks(2).map(|word| u32::from(word[0]) * 256 + u32::from(word[1]));
        let mut sum: u32 = words.sum();
        while sum > 0xFFFF {
            sum = (sum & 0xFFFF) + (sum >> 16);
        }
        sum as u16
    }

    fn sample(n: usize, verdict: Verdict) -> Vec<u8> {
        book_of(&Lent { words: [1, 2, 3].repeat(n), m: 2 }, &verdict)
    }

    fn refused(book: &[u8]) -> (u64, u64, u64) {
        let answer = read(book, &[0; 288]);
        (answer.number, answer.row, answer.block)
    }

    fn resealed(mut book: Vec<u8>, changes: &[(usize, u8)]) -> Vec<u8> {
        for &(at, value) in changes {
            book[at] = value;
        }
        seal(&mut book);
        book
    }

    #[test]
    fn the_check_is_the_rfc_sum() {
        for fill in [0u8, 1, 127, 255] {
            let block = vec![fill; BLOCK];
            assert_eq!(check_of(&block), 0xFFFF - folded(&block));
        }
    }

    #[test]
    fn sums_of_ffff_have_check_0() {
        let row = book_of(&Lent { words: vec![1, 1, 65532], m: 1 }, &Verdict::none());
        assert_eq!(row[1022..], [0, 0]);
        let group = group_of_bytes(&[0xEE, 0xFC, 0, 0, 0, 0, 0, 0, 0, 0, 0, 0]);
        let lent = Lent { words: [1, 1, 1].repeat(16), m: 1 };
        let mut book = book_of(&lent, &Verdict::blocked(&group.rows()));
        assert_eq!(book[510..512], [0, 0]);
        assert_eq!(refused(&book), (0, 0, 0));
        book[510..512].copy_from_slice(&[255, 255]);
        assert_eq!(refused(&book), (11, 0, 0));
    }

    #[test]
    fn an_all_zero_block_fails_by_its_edition() {
        assert_eq!(refused(&resealed(vec![0; BLOCK], &[])), (12, 0, 0));
        assert_eq!(refused(&[0; BLOCK]), (11, 0, 0));
    }

    #[test]
    fn written_books_read_back() {
        for n in [0, 1, 41, 42, 43, 84, 85, 96] {
            let order: Vec<usize> = (0..n).rev().collect();
            let book = sample(n, Verdict::order(&order));
            let answer = read(&book, &[7; 289]);
            assert_eq!((answer.number, answer.m, answer.n, answer.verdict), (0, 2, n as u64, 1));
            assert_eq!(answer.output[..3 * n], [1, 2, 3].repeat(n));
            assert!(answer.output[3 * n..].iter().all(|&word| word == 7));
            assert_eq!(
                Verdict { number: 1, order: answer.order, group: answer.group },
                Verdict::order(&order)
            );
        }
    }

    #[test]
    fn group_bits_rise_within_their_bytes() {
        let book = sample(96, Verdict::blocked(&BTreeSet::from([0, 9, 64, 95])));
        assert_eq!(book[102..114], [1, 2, 0, 0, 0, 0, 0, 0, 1, 0, 0, 128]);
        let answer = read(&book, &[0; 288]);
        assert_eq!(answer.group, Mask { low: 1 | 1 << 9, high: 1 | 1 << 31 });
    }

    #[test]
    fn reading_checks_in_its_own_order() {
        let book = || sample(2, Verdict::none());
        assert_eq!(refused(&[]), (9, 0, 0));
        assert_eq!(refused(&[0; 2560]), (9, 0, 0));
        let mut two_faults = resealed(book(), &[(513, 2)]);
        assert_eq!(refused(&two_faults), (10, 0, 1));
        two_faults[511] ^= 1;
        assert_eq!(refused(&two_faults), (11, 0, 0));
        let faults = [(2, 2), (3, 0), (4, 97), (5, 3), (526 + 3, 0)];
        let numbers = [(12, 0, 0), (2, 0, 0), (1, 0, 0), (13, 0, 0), (3, 1, 0)];
        for first in 0..faults.len() {
            assert_eq!(refused(&resealed(book(), &faults[first..])), numbers[first]);
        }
        assert_eq!(refused(&resealed(book(), &[(4, 43), (5, 3)])), (9, 0, 0));
        assert_eq!(read(&resealed(book(), &[(529, 0)]), &[]).number, 3);
        assert_eq!(read(&book(), &[0; 5]).number, 8);
    }

    #[test]
    fn every_filler_is_judged() {
        for at in [114, 509] {
            assert_eq!(refused(&resealed(sample(0, Verdict::none()), &[(at, 1)])), (13, 0, 0));
        }
        for at in [512 + 26, 512 + 509] {
            assert_eq!(refused(&resealed(sample(2, Verdict::none()), &[(at, 1)])), (13, 0, 0));
        }
        for at in [512 + 506, 512 + 509] {
            assert_eq!(refused(&resealed(sample(42, Verdict::none()), &[(at, 1)])), (13, 0, 0));
        }
    }

    #[test]
    fn forms_of_verdicts() {
        let order = Verdict::order(&[1, 0]);
        assert!(order.has_legal_form(2) && !order.has_legal_form(1) && !order.has_legal_form(3));
        assert!(Verdict::order(&[]).has_legal_form(0));
        assert!(!Verdict::blocked(&BTreeSet::new()).has_legal_form(0));
        assert!(!Verdict::blocked(&BTreeSet::from([2])).has_legal_form(2));
        assert!(!Verdict { number: 0, ..order.clone() }.has_legal_form(2));
        assert!(!Verdict { number: 3, ..Verdict::none() }.has_legal_form(2));
        assert!(!Verdict { group: Mask { low: 0, high: 1 << 40 }, ..order }.has_legal_form(2));
    }

    #[test]
    fn writing_judges_the_verdict_before_the_room() {
        let lent = Lent { words: vec![1, 1, 1], m: 1 };
        let wrong = Verdict::order(&[]);
        assert_eq!(write(&lent, &wrong, &[]).number, 13);
        assert_eq!(write(&lent, &Verdict::none(), &[0; 1023]).number, 8);
        let answer = write(&lent, &Verdict::none(), &[7; 1025]);
        assert_eq!((answer.number, answer.output[1024]), (0, 7));
    }
}
