//! Cases in full ranges: the K cases, all tiny tables, every byte of some books.

use super::steps::chain;
use super::{checked, Size};
use crate::book::{book_length, book_of, seal, Verdict, BLOCK};
use crate::exam::Case;
use crate::known;
use crate::search::{audsley, State};
use crate::table::{all_below, order_bytes, without, Lent, Mask, MOST_ROWS, NO_ROW};
use std::collections::BTreeSet;

const FILL: u8 = 0xA5;

fn all_rows(most: u32) -> Vec<[u32; 3]> {
    let mut rows = Vec::new();
    for t in 1..=most {
        for d in 1..=t {
            rows.extend((1..=d).map(|c| [c, d, t]));
        }
    }
    rows
}

/// Every table of up to three rows with values up to `most`, for 1 to 3 cores.
fn tiny_tables(most: u32) -> Vec<Lent> {
    let mut words: Vec<Vec<u32>> = vec![vec![]];
    let mut longest = words.clone();
    for _ in 0..3 {
        let longer = |shorter: &Vec<u32>| -> Vec<Vec<u32>> {
            all_rows(most).iter().map(|row| [shorter, &row[..]].concat()).collect()
        };
        longest = longest.iter().flat_map(longer).collect();
        words.extend(longest.clone());
    }
    let with_cores = |words: Vec<u32>| (1..=3).map(move |m| Lent { words: words.clone(), m });
    words.into_iter().flat_map(with_cores).collect()
}

fn subsets(n: usize) -> impl Iterator<Item = Mask> {
    (0..1 << n).map(|low| Mask { low, high: 0 })
}

/// Every sequence of `length` distinct rows below n.
fn arrangements(n: usize, length: usize) -> Vec<Vec<usize>> {
    if length == 0 {
        return vec![vec![]];
    }
    let longer = |shorter: Vec<usize>| -> Vec<Vec<usize>> {
        let free = (0..n).filter(|row| !shorter.contains(row));
        free.map(|row| [&shorter[..], &[row]].concat()).collect()
    };
    arrangements(n, length - 1).into_iter().flat_map(longer).collect()
}

fn tests_of(lent: &Lent) -> Vec<Case> {
    let test = |k: usize, above| Case::Test { lent: lent.clone(), k: k as u32, above };
    let sets = |k: usize| subsets(lent.n()).filter(move |set| set.low >> k & 1 == 0);
    (0..lent.n()).flat_map(|k| sets(k).map(move |above| test(k, above))).collect()
}

fn search_of(lent: &Lent) -> Case {
    Case::Search { lent: lent.clone(), output: vec![FILL; lent.n() + 1] }
}

pub fn state_of(placed: &[usize], n: usize, cursor: usize) -> State {
    let mut state = State::fresh();
    state.placed = placed.len() as u64;
    state.cursor = cursor as u64;
    state.order[n - placed.len()..n].copy_from_slice(&order_bytes(placed));
    state
}

fn sound_states(n: usize) -> Vec<State> {
    let placed = (0..=n).flat_map(|length| arrangements(n, length));
    placed.flat_map(|rows| (0..=n).map(move |cursor| state_of(&rows, n, cursor))).collect()
}

fn steps_of(lent: &Lent) -> Vec<Case> {
    let step = |state, quota| Case::Step { lent: lent.clone(), state, quota };
    let states = sound_states(lent.n()).into_iter();
    states.flat_map(|state| [0, 1, 2, u64::MAX].map(|quota| step(state.clone(), quota))).collect()
}

fn policies_of(lent: &Lent) -> Vec<Case> {
    let output = vec![FILL; lent.n() + 1];
    let policy = |policy| Case::Policy { lent: lent.clone(), policy, output: output.clone() };
    (0..=2).map(policy).collect()
}

fn orders_of(lent: &Lent) -> Vec<Case> {
    let orders = arrangements(lent.n(), lent.n()).into_iter();
    orders
        .map(|order| Case::CheckOrder { lent: lent.clone(), order: order_bytes(&order) })
        .collect()
}

fn groups_of(lent: &Lent) -> Vec<Case> {
    subsets(lent.n()).map(|group| Case::CheckGroup { lent: lent.clone(), group }).collect()
}

/// Verdicts around the legal ones: three entries and a few groups, all ways.
fn verdicts() -> Vec<Verdict> {
    let groups = [0, 1, 2, 3, 4, 1 << 64, 1 << 95, 1 << 96, 1u128 << 127];
    let entries = [0, 1, 2, NO_ROW];
    let mut verdicts = Vec::new();
    for number in 0..=3 {
        for bits in groups {
            for code in 0..64 {
                let mut order = [NO_ROW; MOST_ROWS];
                order[..3]
                    .copy_from_slice(&[code % 4, code / 4 % 4, code / 16].map(|e| entries[e]));
                let group = Mask { low: bits as u64, high: (bits >> 64) as u64 };
                verdicts.push(Verdict { number, order, group });
            }
        }
    }
    verdicts
}

fn writes(size: Size) -> Vec<Case> {
    let mut cases = Vec::new();
    for n in 0..=2 {
        let lent = Lent { words: [1, 2, 3].repeat(n), m: 2 };
        for verdict in verdicts() {
            let small = size == Size::Small && !verdict.has_legal_form(n);
            let room = if small { n } else { book_length(n) };
            cases.push(Case::WriteBook { lent: lent.clone(), verdict, output: vec![FILL; room] });
        }
    }
    cases
}

/// A row block and a first block whose sums are 0xFFFF.
pub fn books_of_full_sum() -> [(Lent, Verdict); 2] {
    let one_row = Lent { words: vec![1, 1, 65532], m: 1 };
    let group = BTreeSet::from([1, 2, 3, 5, 6, 7, 10, 11, 12, 13, 14, 15]);
    [(one_row, Verdict::order(&[0])), (ones(16, 1), Verdict::blocked(&group))]
}

fn ones(n: usize, m: u32) -> Lent {
    Lent { words: [1, 1, 1].repeat(n), m }
}

/// Books for the damage of every byte.
fn sample_books(size: Size) -> Vec<Vec<u8>> {
    let mut books = vec![(known::k(11), Verdict::none())];
    books.extend(books_of_full_sum());
    if size == Size::Full {
        books.push((ones(42, 32), Verdict::none()));
        books.push((ones(43, 7), Verdict::order(&(0..43).collect::<Vec<_>>())));
        books.push((ones(96, 3), Verdict::blocked(&(0..96).collect())));
    }
    books.iter().map(|(lent, verdict)| book_of(lent, verdict)).collect()
}

fn reads_of(book: &[u8]) -> Vec<Case> {
    let damaged = |at: usize, repaired: bool| {
        let mut book = book.to_vec();
        book[at] ^= 1 << (at % 8);
        if repaired {
            seal(&mut book);
        }
        Case::ReadBook { book, output: vec![u32::MAX; 3 * MOST_ROWS] }
    };
    (0..book.len()).flat_map(|at| [true, false].map(|repaired| damaged(at, repaired))).collect()
}

/// Books of all forms of verdicts that fit in block 0.
fn reads_of_forms() -> Vec<Case> {
    let storable = |verdict: &Verdict| all_below(&verdict.group.rows(), MOST_ROWS);
    let read = |verdict: Verdict| {
        (0..=2).map(move |n| Case::ReadBook {
            book: book_of(&ones(n, 1), &verdict),
            output: vec![7; 6],
        })
    };
    verdicts().into_iter().filter(storable).flat_map(read).collect()
}

/// Places and values that break one check of reading each, checks repaired.
const FIELD_FAULTS: [(usize, u8); 9] = [
    (1, 1),
    (BLOCK + 1, 2),
    (2, 2),
    (3, 0),
    (4, 43),
    (4, 97),
    (5, 3),
    (BLOCK + 509, 1),
    (BLOCK + 5, 0),
];

fn book_with_faults(fields: usize, bad_checks: usize) -> Vec<u8> {
    let mut book = book_of(&ones(2, 1), &Verdict::none());
    for (bit, (at, value)) in FIELD_FAULTS.into_iter().enumerate() {
        if fields >> bit & 1 == 1 {
            book[at] = value;
        }
    }
    seal(&mut book);
    for block in 0..2 {
        book[BLOCK * block + 511] ^= (bad_checks >> block & 1) as u8;
    }
    book
}

/// Every set of faults at once, so that the order of reading's checks is told.
fn reads_of_fault_sets() -> Vec<Case> {
    let mut cases = Vec::new();
    for fields in 0..1 << FIELD_FAULTS.len() {
        for bad_checks in 0..4 {
            for room in [5, 6] {
                let book = book_with_faults(fields, bad_checks);
                cases.push(Case::ReadBook { book, output: vec![7; room] });
            }
        }
    }
    cases
}

fn reads(size: Size) -> Vec<Case> {
    let mut cases: Vec<Case> = sample_books(size).iter().flat_map(|book| reads_of(book)).collect();
    cases.extend(reads_of_forms());
    cases.extend(reads_of_fault_sets());
    cases
}

/// The full range of a kind.
pub fn full_range(kind: u8, size: Size) -> Vec<Case> {
    match kind {
        1 => tiny_tables(3).iter().flat_map(tests_of).collect(),
        2 => tiny_tables(3).iter().map(search_of).collect(),
        3 => tiny_tables(2).iter().flat_map(steps_of).collect(),
        4 => tiny_tables(3).iter().flat_map(policies_of).collect(),
        5 => tiny_tables(3).iter().flat_map(orders_of).collect(),
        6 => tiny_tables(3).iter().flat_map(groups_of).collect(),
        7 => writes(size),
        8 => reads(size),
        _ => panic!("there is no kind {kind}"),
    }
}

fn known_tests(lent: &Lent) -> Vec<Case> {
    let all: BTreeSet<usize> = (0..lent.n()).collect();
    let above = |k| Mask::of(&without(&all, k));
    (0..lent.n()).map(|k| Case::Test { lent: lent.clone(), k: k as u32, above: above(k) }).collect()
}

fn known_books() -> Vec<(Lent, Verdict)> {
    let with_verdict = |lent: Lent| {
        let verdict = Verdict::of_search(&audsley(&checked(&lent)));
        (lent, verdict)
    };
    let mut books: Vec<(Lent, Verdict)> = known::tables().into_iter().map(with_verdict).collect();
    books.push((known::k(11), Verdict::none()));
    books.extend(books_of_full_sum());
    books
}

fn known_writes() -> Vec<Case> {
    let write = |(lent, verdict): (Lent, Verdict)| {
        let output = vec![FILL; book_length(lent.n())];
        Case::WriteBook { lent, verdict, output }
    };
    known_books().into_iter().map(write).collect()
}

fn known_reads() -> Vec<Case> {
    let read = |(lent, verdict): (Lent, Verdict)| Case::ReadBook {
        book: book_of(&lent, &verdict),
        output: vec![7; lent.words.len() + 1],
    };
    known_books().into_iter().map(read).collect()
}

/// The K cases of a kind.
pub fn known_cases(kind: u8) -> Vec<Case> {
    let tables = known::tables();
    match kind {
        1 => tables.iter().flat_map(known_tests).collect(),
        2 => tables.iter().map(search_of).collect(),
        3 => tables.iter().flat_map(|lent| chain(lent, || 1)).collect(),
        4 => tables.iter().flat_map(policies_of).collect(),
        5 => tables.iter().flat_map(orders_of).collect(),
        6 => tables.iter().flat_map(groups_of).collect(),
        7 => known_writes(),
        8 => known_reads(),
        _ => panic!("there is no kind {kind}"),
    }
}

#[cfg(test)]
mod tests {
    use super::*;

    #[test]
    fn ranges_have_their_full_number() {
        assert_eq!(tiny_tables(3).len(), 3 * (1 + 10 + 100 + 1000));
        assert_eq!(full_range(1, Size::Full).len(), 3 * (10 + 100 * 4 + 1000 * 12));
        assert_eq!(sound_states(3).len(), 4 * (1 + 3 + 6 + 6));
        assert_eq!(arrangements(3, 3).len(), 6);
    }

    #[test]
    fn sample_books_are_readable() {
        for book in sample_books(Size::Full) {
            assert!(crate::book::parse(&book).is_ok());
        }
    }
}
