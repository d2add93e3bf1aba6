//! Audsley's search, in one call and in quota steps.

use crate::table::{
    number, order_bytes, require, stored, without, Lent, Mask, Refusal, Table, MOST_ROWS, NO_ROW,
};
use crate::test::{carry_ins, passes, passes_with};
use std::collections::BTreeSet;

/// How a search ends: an order of all rows if the group is empty.
#[derive(Clone, Debug, PartialEq, Eq)]
pub struct Found {
    pub order: Vec<usize>,
    pub group: BTreeSet<usize>,
    pub tests: u64,
}

impl Found {
    pub fn number(&self) -> u64 {
        if self.group.is_empty() {
            number::DONE
        } else {
            number::BLOCKED
        }
    }
}

fn passes_lowest(table: &Table, k: usize, unplaced: &BTreeSet<usize>) -> bool {
    passes(table, k, &without(unplaced, k))
}

pub fn audsley(table: &Table) -> Found {
    audsley_with(table, carry_ins(table))
}

/// The search by the test with another number of carry-ins.
pub fn audsley_with(table: &Table, carry_ins: usize) -> Found {
    let mut unplaced: BTreeSet<usize> = (0..table.n()).collect();
    let mut order = Vec::new();
    let mut tests = 0;
    while !unplaced.is_empty() {
        let passes = |&k: &usize| passes_with(table, k, &without(&unplaced, k), carry_ins);
        let first = unplaced.iter().copied().find(passes);
        match first {
            Some(row) => {
                tests += unplaced.range(..=row).count();
                unplaced.remove(&row);
                order.insert(0, row);
            }
            None => {
                tests += unplaced.len();
                break;
            }
        }
    }
    Found { order, group: unplaced, tests: tests as u64 }
}

#[derive(Clone, Debug, PartialEq, Eq)]
pub struct SearchAnswer {
    pub number: u64,
    pub row: u64,
    pub group: Mask,
    pub tests: u64,
    pub output: Vec<u8>,
}

fn admitted(lent: &Lent, room: usize) -> Result<Table, Refusal> {
    let table = lent.checked()?;
    require(table.n() <= room, number::OUTPUT_SHORT)?;
    Ok(table)
}

/// The search in one call.
pub fn search(lent: &Lent, output: &[u8]) -> SearchAnswer {
    let output = output.to_vec();
    let table = match admitted(lent, output.len()) {
        Ok(table) => table,
        Err(Refusal { number, row }) => {
            return SearchAnswer { number, row, group: Mask::default(), tests: 0, output }
        }
    };
    let found = audsley(&table);
    let number = found.number();
    let output = match number {
        number::DONE => stored(&output, &order_bytes(&found.order)),
        _ => output,
    };
    SearchAnswer { number, row: 0, group: Mask::of(&found.group), tests: found.tests, output }
}

/// The search state of the quota steps.
#[derive(Clone, Debug, PartialEq, Eq)]
pub struct State {
    pub order: [u8; MOST_ROWS],
    pub placed: u64,
    pub cursor: u64,
}

impl State {
    pub fn fresh() -> State {
        State { order: [NO_ROW; MOST_ROWS], placed: 0, cursor: 0 }
    }

    pub fn sound(&self, n: usize) -> bool {
        if self.placed > n as u64 || self.cursor > n as u64 {
            return false;
        }
        let first = n - self.placed as usize;
        let entries = &self.order[first..n];
        let distinct: BTreeSet<u8> = entries.iter().copied().collect();
        distinct.len() == entries.len()
            && entries.iter().all(|&row| usize::from(row) < n)
            && self.order[..first].iter().all(|&entry| entry == NO_ROW)
            && self.order[n..].iter().all(|&entry| entry == NO_ROW)
    }

    fn unplaced(&self, n: usize) -> BTreeSet<usize> {
        let placed = &self.order[n - self.placed as usize..n];
        (0..n).filter(|&row| !placed.contains(&(row as u8))).collect()
    }

    /// The row of the next test; none in a finished state.
    fn next_row(&self, n: usize) -> Option<usize> {
        self.unplaced(n).range(self.cursor as usize..).next().copied()
    }

    fn after_test(mut self, table: &Table, k: usize) -> State {
        let n = table.n();
        if passes_lowest(table, k, &self.unplaced(n)) {
            self.placed += 1;
            self.order[n - self.placed as usize] = k as u8;
            self.cursor = 0;
        } else {
            self.cursor = k as u64 + 1;
        }
        self
    }

    fn number(&self, n: usize) -> u64 {
        if self.placed == n as u64 {
            number::DONE
        } else if self.next_row(n).is_none() {
            number::BLOCKED
        } else {
            number::QUOTA_SPENT
        }
    }
}

#[derive(Clone, Debug, PartialEq, Eq)]
pub struct StepAnswer {
    pub number: u64,
    pub row: u64,
    pub group: Mask,
    pub tests: u64,
    pub state: State,
}

fn admitted_state(lent: &Lent, state: &State) -> Result<Table, Refusal> {
    let table = lent.checked()?;
    require(state.sound(table.n()), number::STATE_NOT_SOUND)?;
    Ok(table)
}

/// One quota step.
pub fn step(lent: &Lent, state: &State, quota: u64) -> StepAnswer {
    let mut state = state.clone();
    let table = match admitted_state(lent, &state) {
        Ok(table) => table,
        Err(Refusal { number, row }) => {
            return StepAnswer { number, row, group: Mask::default(), tests: 0, state }
        }
    };
    let mut tests = 0;
    while let (true, Some(k)) = (tests < quota, state.next_row(table.n())) {
        state = state.after_test(&table, k);
        tests += 1;
    }
    let number = state.number(table.n());
    let group = match number {
        number::BLOCKED => Mask::of(&state.unplaced(table.n())),
        _ => Mask::default(),
    };
    StepAnswer { number, row: 0, group, tests, state }
}

#[cfg(test)]
mod tests {
    use super::*;
    use crate::known;

    fn state(placed_rows: &[u8], n: usize, cursor: u64) -> State {
        let mut state = State { cursor, placed: placed_rows.len() as u64, ..State::fresh() };
        state.order[n - placed_rows.len()..n].copy_from_slice(placed_rows);
        state
    }

    #[test]
    fn short_output_comes_before_the_work() {
        let answer = search(&known::k(4), &[7; 2]);
        assert_eq!((answer.number, answer.tests, answer.output), (8, 0, vec![7; 2]));
    }

    #[test]
    fn later_output_bytes_stay_and_a_blocked_search_stores_nothing() {
        assert_eq!(search(&known::k(3), &[7; 4]).output, [1, 0, 7, 7]);
        let blocked = search(&known::k(4), &[7; 4]);
        assert_eq!((blocked.number, blocked.group.low, blocked.output), (4, 7, vec![7; 4]));
    }

    #[test]
    fn a_quota_that_ends_on_the_finishing_test_is_finished() {
        let answer = step(&known::k(4), &State::fresh(), 3);
        assert_eq!((answer.number, answer.tests, answer.group.low), (4, 3, 7));
        assert_eq!(answer.state, state(&[], 3, 3));
        let unfinished = step(&known::k(4), &State::fresh(), 2);
        assert_eq!((unfinished.number, unfinished.group), (15, Mask::default()));
    }

    #[test]
    fn finished_states_answer_with_quota_0() {
        assert_eq!(step(&known::k(1), &State::fresh(), 0).number, 0);
        assert_eq!(step(&known::k(4), &state(&[2, 0, 1], 3, 1), 0).number, 0);
        let blocked = step(&known::k(4), &state(&[2], 3, 2), 0);
        assert_eq!((blocked.number, blocked.group.low), (4, 3));
        assert_eq!(step(&known::k(4), &State::fresh(), 0).number, 15);
    }

    #[test]
    fn states_that_are_not_sound() {
        let number = |state: State| step(&known::k(4), &state, 1).number;
        let mut beyond = State::fresh();
        beyond.order[3] = 0;
        let mut before = State::fresh();
        before.order[0] = 0;
        for unsound in [beyond, before, state(&[1, 1], 3, 0), state(&[3], 3, 0), state(&[], 3, 4)] {
            assert_eq!(number(unsound), 7);
        }
        assert_eq!(number(State { placed: u64::MAX, ..State::fresh() }), 7);
    }
}
