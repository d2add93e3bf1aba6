//! Limits of a search state and of a quota.

use super::{heavy, light, limit, Limit};
use crate::exam::Case;
use crate::gen::systematic::state_of;
use crate::gen::tables::rising_rows;
use crate::search::State;
use crate::table::{Lent, MOST_ROWS, NO_ROW};
use std::collections::BTreeSet;

/// n rows of which the first `placed` are placed, in a sound state; quota 0 judges the state alone.
struct Placed {
    n: usize,
    placed: usize,
    state: State,
}

impl Placed {
    fn new(n: usize, placed: usize) -> Placed {
        Placed { n, placed, state: state_of(&(0..placed).collect::<Vec<_>>(), n, 0) }
    }

    fn all() -> Vec<Placed> {
        let of_n = |n| BTreeSet::from([0, 1, n - 1, n]).into_iter().map(move |p| Placed::new(n, p));
        [1, 2, 64, 95, MOST_ROWS].into_iter().flat_map(of_n).collect()
    }

    /// The number of the state, in which the rows from `placed` on are free.
    fn sound(&self, cursor: usize) -> u64 {
        if self.placed == self.n {
            0
        } else if cursor == self.n {
            4
        } else {
            15
        }
    }

    fn limit(&self, name: &'static str, at: &str, state: State, number: u64) -> Limit<Case> {
        limit(name, at, Case::Step { lent: light(self.n), state, quota: 0 }, number)
    }

    fn counts(&self) -> Vec<Limit<Case>> {
        const PLACED: &str = "placed: at most n, and so many entries";
        let (n, placed) = (self.n as u64, self.placed as u64);
        let wrong =
            |(at, placed)| self.limit(PLACED, at, State { placed, ..self.state.clone() }, 7);
        let at = if placed == n { "n" } else { "fewer than n" };
        let mut limits = vec![self.limit(PLACED, at, self.state.clone(), self.sound(0))];
        limits.extend(
            [
                ("one less than stand", placed.wrapping_sub(1)),
                ("one more than stand", placed + 1),
                ("n + 1", n + 1),
                ("256 more", placed + 256),
                ("2^32 more", placed + (1 << 32)),
                ("2^64 − 1", u64::MAX),
            ]
            .map(wrong),
        );
        limits
    }

    fn cursors(&self) -> Vec<Limit<Case>> {
        let name =
            if self.placed == self.n { "cursor at most n, all placed" } else { "cursor at most n" };
        let n = self.n;
        let of_cursor = |(at, cursor): (&str, usize)| {
            let state = State { cursor: cursor as u64, ..self.state.clone() };
            self.limit(name, at, state, if cursor <= n { self.sound(cursor) } else { 7 })
        };
        let cursors = [
            ("0", 0),
            ("n − 1", n - 1),
            ("n", n),
            ("n + 1", n + 1),
            ("256", 256),
            ("2^32", 1 << 32),
            ("2^64 − 1", usize::MAX),
        ];
        cursors.map(of_cursor).into()
    }

    fn with_entry(&self, at: usize, entry: u8) -> State {
        let mut state = self.state.clone();
        state.order[at] = entry;
        state
    }

    /// The first and the last entry of those placed, each made wrong; the last one row further.
    fn ends(&self) -> Vec<Limit<Case>> {
        const ENDS: &str = "placed entries: distinct rows";
        let (n, placed) = (self.n, self.placed);
        let mut limits = Vec::new();
        for (place, neighbour) in [(n - placed, n - placed + 1), (n - 1, n.wrapping_sub(2))] {
            for (at, entry) in [("255", NO_ROW), ("254", 254), ("n", n as u8)] {
                limits.push(self.limit(ENDS, at, self.with_entry(place, entry), 7));
            }
            if placed > 1 {
                let twice = self.with_entry(place, self.state.order[neighbour]);
                limits.push(self.limit(ENDS, "a row twice", twice, 7));
            }
        }
        if placed < n {
            limits.push(self.limit(ENDS, "another row", self.with_entry(n - 1, placed as u8), 15));
        }
        limits
    }

    /// Entries on both sides of those placed.
    fn others(&self) -> Vec<Limit<Case>> {
        const OTHERS: &str = "other entries: 255";
        let (first, behind) = (self.n - self.placed, self.n);
        let mut limits = Vec::new();
        let before = if first > 0 { vec![0, first - 1] } else { vec![] };
        let after = if behind < MOST_ROWS { vec![behind, MOST_ROWS - 1] } else { vec![] };
        for place in before.into_iter().chain(after) {
            let at = if place < first { "before those placed" } else { "behind entry n − 1" };
            for entry in [0, self.n as u8 - 1, self.n as u8, 254] {
                limits.push(self.limit(OTHERS, at, self.with_entry(place, entry), 7));
            }
        }
        limits
    }

    fn limits(&self) -> Vec<Limit<Case>> {
        let ends = if self.placed > 0 { self.ends() } else { vec![] };
        [self.counts(), self.cursors(), ends, self.others()].into_iter().flatten().collect()
    }
}

/// Steps from fresh, for a search known to end with a number after so many tests.
fn quotas(name: &'static str, lent: &Lent, tests: u64, end: u64) -> Vec<Limit<Case>> {
    let of_quota = |(at, quota)| {
        let case = Case::Step { lent: lent.clone(), state: State::fresh(), quota };
        limit(name, at, case, if quota < tests { 15 } else { end })
    };
    [
        ("0", 0),
        ("1", 1),
        ("the tests needed − 1", tests - 1),
        ("the tests needed", tests),
        ("the tests needed + 1", tests + 1),
        ("2^64 − 1", u64::MAX),
    ]
    .map(of_quota)
    .into()
}

/// No test is needed without rows.
fn quotas_without_rows() -> Vec<Limit<Case>> {
    let of_quota = |(at, quota)| {
        let case = Case::Step { lent: light(0), state: State::fresh(), quota };
        limit("quota, n 0", at, case, 0)
    };
    [("0", 0), ("1", 1), ("2^64 − 1", u64::MAX)].map(of_quota).into()
}

pub fn states(kind: u8) -> Vec<Limit<Case>> {
    if kind != 3 {
        return vec![];
    }
    let mut limits: Vec<Limit<Case>> = Placed::all().iter().flat_map(Placed::limits).collect();
    for n in [2, 95, MOST_ROWS] {
        let most = (n * (n + 1) / 2) as u64;
        let rising = Lent { words: rising_rows(n, 0).concat(), m: 1 };
        limits.extend(quotas("quota, placed", &light(n), n as u64, 0));
        limits.extend(quotas("quota, placed", &rising, most, 0));
        limits.extend(quotas("quota, blocked", &heavy(n), n as u64, 4));
    }
    limits.extend(quotas_without_rows());
    limits
}
