//! Chains of quota steps from the fresh state, and sound states at random.

use super::rng::Rng;
use super::tables::table;
use super::{checked, Size};
use crate::exam::Case;
use crate::search::{audsley, step, State, StepAnswer};
use crate::table::{number, order_bytes, Lent, Mask};

/// The end of a chain must be the end of the search in one call.
fn assert_agrees(lent: &Lent, tests: u64, last: &StepAnswer) {
    let n = lent.n();
    let found = audsley(&checked(lent));
    let entries = &last.state.order[n - last.state.placed as usize..n];
    assert_eq!(last.number, found.number());
    assert_eq!(tests, found.tests);
    assert_eq!(last.group, Mask::of(&found.group));
    assert_eq!(entries, order_bytes(&found.order));
    assert!(tests <= (n * (n + 1) / 2) as u64);
}

/// Steps from fresh until finished, each with the next quota.
pub fn chain(lent: &Lent, mut quota: impl FnMut() -> u64) -> Vec<Case> {
    let (mut cases, mut state, mut tests) = (Vec::new(), State::fresh(), 0);
    loop {
        let quota = quota();
        let answer = step(lent, &state, quota);
        cases.push(Case::Step { lent: lent.clone(), state, quota });
        tests += answer.tests;
        if answer.number != number::QUOTA_SPENT {
            assert_agrees(lent, tests, &answer);
            return cases;
        }
        assert_eq!(answer.tests, quota);
        state = answer.state;
    }
}

/// A chain of some forty steps at most, quotas of 0 not counted.
pub fn random_chain(rng: &Rng, size: Size) -> Vec<Case> {
    let lent = table(rng, size);
    let tests = audsley(&checked(&lent)).tests;
    let least = tests / 40 + 1;
    let most = least + rng.pick(&[0, tests / 10, tests]);
    chain(&lent, || match rng.below(12) {
        0 => 0,
        1 => tests,
        2 => u64::MAX >> rng.below(8),
        _ => rng.range(least, most),
    })
}

/// A sound state that the search need not reach.
pub fn random_state(rng: &Rng, n: usize) -> State {
    let placed = rng.size(0, n);
    let rows = order_bytes(&rng.permutation(n)[..placed]);
    let mut state = State::fresh();
    state.order[n - placed..n].copy_from_slice(&rows);
    state.placed = placed as u64;
    state.cursor = rng.pick(&[0, rng.below(n as u64 + 1), n as u64]);
    state
}

pub fn random_quota(rng: &Rng) -> u64 {
    match rng.below(6) {
        0 => 0,
        1 => 1,
        2 => u64::MAX,
        3 => rng.below(10),
        4 => rng.below(4656),
        _ => rng.next(),
    }
}
