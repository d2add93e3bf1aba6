//! Cases of every kind, the same for the same seed: the K cases and those at a limit, then
//! a mix of full ranges, malformed inputs, edges and realistic tables.

mod books;
pub mod border;
mod faults;
mod limits;
mod records;
pub(crate) mod rng;
mod steps;
mod systematic;
pub(crate) mod tables;

pub use books::{host_cases, Books};
pub use records::records_cases;

use crate::book::{book_length, book_of, Verdict};
use crate::exam::{refuses_before_work, Case};
use crate::policy::proposed;
use crate::search::audsley;
use crate::table::{order_bytes, Lent, Mask, Table, MOST_ROWS};
use crate::test::passes;
use rng::Rng;
use std::collections::{BTreeSet, VecDeque};
use tables::{near_ties, table, table_with_rows};

/// How large the tables are; small ones make files fit to store.
#[derive(Clone, Copy, Debug, PartialEq, Eq)]
pub enum Size {
    Small,
    Full,
}

/// An endless sequence of cases of one kind.
pub struct Generator {
    kind: u8,
    size: Size,
    rng: Rng,
    known: VecDeque<Case>,
    limits: VecDeque<Case>,
    full_range: Vec<Case>,
    chain: VecDeque<Case>,
}

impl Iterator for Generator {
    type Item = Case;

    fn next(&mut self) -> Option<Case> {
        if let Some(case) = self.known.pop_front().or_else(|| self.limits.pop_front()) {
            return Some(case);
        }
        Some(match self.rng.below(20) {
            0..=4 => self.next_of_range(),
            5..=13 => self.malformed(),
            _ => self.well_formed(),
        })
    }
}

impl Generator {
    pub fn new(kind: u8, size: Size, seed: u64) -> Generator {
        let rng = Rng::new(seed.wrapping_mul(0x100).wrapping_add(kind.into()));
        let mut full_range = systematic::full_range(kind, size);
        // So that a short run takes an even share of the range.
        rng.shuffle(&mut full_range);
        let known = systematic::known_cases(kind).into();
        let limits = match size {
            Size::Small => VecDeque::new(),
            Size::Full => limits::cases(kind).collect(),
        };
        Generator { kind, size, rng, known, limits, full_range, chain: VecDeque::new() }
    }

    fn next_of_range(&mut self) -> Case {
        self.full_range.pop().unwrap_or_else(|| self.well_formed())
    }

    fn malformed(&mut self) -> Case {
        loop {
            let mut case = self.base_for_faults();
            faults::damage(&self.rng, &mut case);
            if refuses_before_work(case.answer().number()) {
                return case;
            }
        }
    }

    /// A case to put faults into; a chain keeps its steps for itself.
    fn base_for_faults(&mut self) -> Case {
        match self.kind {
            3 => self.unreached_step(),
            _ => self.well_formed(),
        }
    }

    fn well_formed(&mut self) -> Case {
        match self.kind {
            1 => self.test(),
            2 => self.search(),
            3 => self.step(),
            4 => self.policy(),
            5 => self.check_order(),
            6 => self.check_group(),
            7 => self.write_book(),
            _ => self.read_book(),
        }
    }

    fn table(&mut self) -> Lent {
        table(&self.rng, self.size)
    }

    /// An output of the least length or a little longer.
    fn output(&mut self, least: usize) -> Vec<u8> {
        let more = match self.size {
            Size::Small => self.rng.size(0, 2),
            Size::Full => self.rng.pick(&[0, 0, 1, 5, MOST_ROWS]),
        };
        self.rng.buffer(least + more)
    }

    fn test(&mut self) -> Case {
        let mut lent = table_with_rows(&self.rng, self.size);
        let k = self.rng.index(lent.n());
        let above = self.set_above(&lent, k);
        if self.rng.one_in(3) {
            move_to_border(&self.rng, &mut lent, k, &above);
        }
        Case::Test { lent, k: k as u32, above: Mask::of(&above) }
    }

    /// All other rows, a number of them about m, or any.
    fn set_above(&mut self, lent: &Lent, k: usize) -> BTreeSet<usize> {
        let others: Vec<usize> =
            self.rng.permutation(lent.n()).into_iter().filter(|&row| row != k).collect();
        let m = lent.m as usize;
        let count = match self.rng.below(4) {
            0 => self.rng.size(m - 1, m + 1),
            1 => self.rng.size(0, others.len()),
            _ => others.len(),
        };
        others.into_iter().take(count).collect()
    }

    fn search(&mut self) -> Case {
        let lent = self.table();
        let output = self.output(lent.n());
        Case::Search { lent, output }
    }

    fn step(&mut self) -> Case {
        if self.chain.is_empty() && self.rng.one_in(3) {
            return self.unreached_step();
        }
        if self.chain.is_empty() {
            self.chain = steps::random_chain(&self.rng, self.size).into();
        }
        self.chain.pop_front().expect("a chain has at least one step")
    }

    fn unreached_step(&mut self) -> Case {
        let lent = self.table();
        let state = steps::random_state(&self.rng, lent.n());
        Case::Step { lent, state, quota: steps::random_quota(&self.rng) }
    }

    fn policy(&mut self) -> Case {
        let ties = self.rng.one_in(2);
        let lent = if ties { near_ties(&self.rng, self.size) } else { self.table() };
        let policy = self.rng.pick(&[0, 1, 2, 2, 2]);
        let output = self.output(lent.n());
        Case::Policy { lent, policy, output }
    }

    fn check_order(&mut self) -> Case {
        let lent = self.table();
        let order = self.order(&checked(&lent));
        Case::CheckOrder { lent, order: order_bytes(&order) }
    }

    /// An order found, proposed or at random, sometimes with two rows swapped.
    fn order(&mut self, table: &Table) -> Vec<usize> {
        let n = table.n();
        let found = audsley(table).order;
        let mut order = match self.rng.below(4) {
            0 => self.rng.permutation(n),
            1 => proposed(table, self.rng.pick(&[0, 1, 2])),
            _ if found.len() == n => found,
            _ => proposed(table, 2),
        };
        if n > 1 && self.rng.one_in(3) {
            let at = self.rng.index(n - 1);
            order.swap(at, at + 1);
        }
        order
    }

    fn check_group(&mut self) -> Case {
        let lent = table_with_rows(&self.rng, self.size);
        let group = Mask::of(&self.group(&checked(&lent)));
        Case::CheckGroup { lent, group }
    }

    /// The blocked group of the search, or one row more or less, or any.
    fn group(&mut self, table: &Table) -> BTreeSet<usize> {
        let row = self.rng.index(table.n());
        let mut group = audsley(table).group;
        match self.rng.below(4) {
            0 => group.extend([row]),
            1 => group = (0..table.n()).filter(|_| self.rng.one_in(2)).collect(),
            2 if group.len() > 1 => {
                group.remove(&row);
            }
            _ => (),
        }
        if group.is_empty() {
            group.insert(row);
        }
        group
    }

    /// A table and a verdict of legal form for it, true or not.
    fn book_parts(&mut self) -> (Lent, Verdict) {
        let lent = self.table();
        let n = lent.n();
        let verdict = match self.rng.below(4) {
            0 => Verdict::none(),
            1 => Verdict::order(&self.rng.permutation(n)),
            2 if n > 0 => Verdict::blocked(&self.group(&checked(&lent))),
            _ => Verdict::of_search(&audsley(&checked(&lent))),
        };
        (lent, verdict)
    }

    fn write_book(&mut self) -> Case {
        let (lent, verdict) = self.book_parts();
        let output = self.output(book_length(lent.n()));
        Case::WriteBook { lent, verdict, output }
    }

    fn read_book(&mut self) -> Case {
        let (lent, verdict) = self.book_parts();
        let room = lent.words.len() + self.rng.size(0, 3);
        let output = (0..room).map(|_| self.rng.next() as u32).collect();
        Case::ReadBook { book: book_of(&lent, &verdict), output }
    }
}

pub(crate) fn checked(lent: &Lent) -> Table {
    lent.checked().expect("generated tables are in range")
}

/// Gives row k the last C that passes or the first that fails, as halving finds them.
fn move_to_border(rng: &Rng, lent: &mut Lent, k: usize, above: &BTreeSet<usize>) {
    let (mut pass, mut fail) = (1, lent.words[3 * k + 1] + 1);
    while fail - pass > 1 {
        lent.words[3 * k] = (pass + fail) / 2;
        if passes(&checked(lent), k, above) {
            pass = lent.words[3 * k];
        } else {
            fail = lent.words[3 * k];
        }
    }
    lent.words[3 * k] = rng.pick(&[pass, fail.min(lent.words[3 * k + 1])]);
}

#[cfg(test)]
mod tests {
    use super::*;
    use crate::exam::{Reader, KINDS};
    use std::collections::BTreeMap;

    const INPUTS: usize = 1500;

    /// Without the limits, which have tests of their own.
    fn cases(kind: u8, size: Size) -> impl Iterator<Item = Case> {
        let generator = Generator::new(kind, size, 1);
        Generator { limits: VecDeque::new(), ..generator }.take(INPUTS)
    }

    fn numbers(kind: u8, size: Size) -> BTreeMap<u64, usize> {
        let mut numbers = BTreeMap::new();
        for case in cases(kind, size) {
            *numbers.entry(case.answer().number()).or_default() += 1;
        }
        numbers
    }

    #[test]
    fn every_number_of_a_kind_occurs_and_a_third_is_malformed() {
        let expected: [&[u64]; 8] = [
            &[0, 1, 2, 3, 5],
            &[0, 1, 2, 3, 4, 8],
            &[0, 1, 2, 3, 4, 7, 15],
            &[0, 1, 2, 3, 8, 16],
            &[0, 1, 2, 3, 5, 6],
            &[0, 1, 2, 3, 5, 14],
            &[0, 1, 2, 3, 8, 13],
            &[0, 1, 2, 3, 8, 9, 10, 11, 12, 13],
        ];
        for ((kind, name), expected) in KINDS.into_iter().zip(expected) {
            for size in [Size::Small, Size::Full] {
                let numbers = numbers(kind, size);
                assert!(numbers.keys().eq(expected), "{name}: {numbers:?}");
                assert!(numbers.values().all(|&count| count >= 5), "{name}: {numbers:?}");
                let refused = numbers.iter().filter(|(&number, _)| refuses_before_work(number));
                assert!(3 * refused.map(|(_, count)| count).sum::<usize>() >= INPUTS, "{name}");
            }
        }
    }

    #[test]
    fn cases_decode_to_themselves() {
        for (kind, name) in KINDS {
            for case in cases(kind, Size::Full).chain(limits::cases(kind)) {
                let bytes = case.encode();
                assert_eq!(Case::decode(&mut Reader::new(&bytes)).as_ref(), Some(&case), "{name}");
                assert_eq!(Case::decode(&mut Reader::new(&bytes[..bytes.len() - 1])), None);
            }
        }
    }

    #[test]
    fn the_same_seed_gives_the_same_cases() {
        for (kind, _) in KINDS {
            let cases = || cases(kind, Size::Full).take(300);
            assert!(cases().eq(cases()));
        }
    }
}
