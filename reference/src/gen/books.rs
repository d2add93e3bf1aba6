//! Books for the host entry and for the listing program, at least half of them damaged.

use super::rng::Rng;
use super::{limits, Generator, Size};
use crate::book::{book_of, parse, Verdict, BLOCK};
use crate::exam::Case;
use crate::examine::{HostCase, MOST_BYTES};
use crate::table::{Lent, MOST_ROWS};
use std::collections::VecDeque;

const READ_BOOK: u8 = 8;

/// An endless sequence: books at the limits, then damaged books and those of the K cases, full
/// ranges and random tables by turns.
pub struct Books {
    cases: Generator,
    first: VecDeque<Vec<u8>>,
    damaged_last: bool,
}

impl Iterator for Books {
    type Item = Vec<u8>;

    fn next(&mut self) -> Option<Vec<u8>> {
        if let Some(book) = self.first.pop_front() {
            return Some(book);
        }
        self.damaged_last = !self.damaged_last;
        Some(if self.damaged_last { self.damaged() } else { self.other() })
    }
}

impl Books {
    pub fn new(seed: u64) -> Books {
        Books::after(limits::books().chain([much_more()]), seed)
    }

    fn after(first: impl Iterator<Item = Vec<u8>>, seed: u64) -> Books {
        let cases = Generator::new(READ_BOOK, Size::Full, seed);
        Books { cases, first: first.collect(), damaged_last: false }
    }

    fn damaged(&mut self) -> Vec<u8> {
        loop {
            let book = book_of_case(self.cases.malformed());
            if parse(&book).is_err() {
                return book;
            }
        }
    }

    fn other(&mut self) -> Vec<u8> {
        let cases = &mut self.cases;
        let case = match cases.known.pop_front() {
            Some(case) => case,
            None if cases.rng.one_in(4) => cases.next_of_range(),
            None => cases.well_formed(),
        };
        book_of_case(case)
    }
}

fn book_of_case(case: Case) -> Vec<u8> {
    match case {
        Case::ReadBook { book, .. } => book,
        _ => panic!("kind {READ_BOOK} reads books"),
    }
}

/// What a reader that stops at the longest book takes for a whole one.
fn much_more() -> Vec<u8> {
    let longest = Lent { words: [1, 1, 1].repeat(MOST_ROWS), m: 1 };
    let mut book = book_of(&longest, &Verdict::none());
    book.resize(MOST_BYTES, 0);
    book
}

/// An output shorter than its book, as long, or longer.
fn output_length(rng: &Rng, least: usize) -> usize {
    let length = match rng.below(8) {
        0 | 1 if least > 0 => rng.pick(&[least - 1, 0, rng.size(0, least - 1)]),
        2..=4 => least,
        _ => least + rng.pick(&[1, 5, BLOCK, rng.size(1, 600)]),
    };
    length.min(MOST_BYTES)
}

/// Books with outputs of random bytes.
fn random_host_cases(seed: u64) -> impl Iterator<Item = HostCase> {
    let rng = Rng::new(seed);
    Books::after([much_more()].into_iter(), seed).map(move |book| {
        let output = rng.buffer(output_length(&rng, book.len()));
        HostCase { book, output }
    })
}

/// The limits of the entry, then random cases.
pub fn host_cases(seed: u64) -> impl Iterator<Item = HostCase> {
    limits::host_cases().chain(random_host_cases(seed))
}

#[cfg(test)]
mod tests {
    use super::*;
    use crate::host::host;
    use std::cmp::Ordering;
    use std::collections::{BTreeMap, BTreeSet};
    use std::iter;

    const INPUTS: usize = 1500;

    #[test]
    fn at_least_half_of_the_books_are_damaged() {
        let damaged =
            Books::after(iter::empty(), 1).take(INPUTS).filter(|book| parse(book).is_err()).count();
        assert!((INPUTS / 2..INPUTS * 3 / 4).contains(&damaged), "{damaged}");
    }

    #[test]
    fn every_number_of_the_host_entry_occurs() {
        let mut numbers: BTreeMap<u64, usize> = BTreeMap::new();
        for HostCase { book, output } in random_host_cases(1).take(INPUTS) {
            *numbers.entry(host(&book, &output).number).or_default() += 1;
        }
        assert!(numbers.keys().eq(&[0, 1, 2, 3, 4, 8, 9, 10, 11, 12, 13]), "{numbers:?}");
        assert!(numbers.values().all(|&count| count >= 5), "{numbers:?}");
    }

    #[test]
    fn outputs_of_every_length_meet_every_kind_of_book() {
        let seen: BTreeSet<(bool, Ordering)> = random_host_cases(1)
            .take(INPUTS)
            .map(|case| (parse(&case.book).is_ok(), case.output.len().cmp(&case.book.len())))
            .collect();
        assert_eq!(seen.len(), 6);
    }

    #[test]
    fn the_same_seed_gives_the_same_cases() {
        assert!(random_host_cases(3).take(100).eq(random_host_cases(3).take(100)));
        assert!(!random_host_cases(3).take(100).eq(random_host_cases(4).take(100)));
    }
}
