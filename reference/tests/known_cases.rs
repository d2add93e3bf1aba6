//! K1 to K11.

use reference::audit::{check_group, check_order};
use reference::book::{read, write, Verdict};
use reference::known::k;
use reference::policy::propose;
use reference::search::search;
use reference::table::{without, Mask};
use reference::test::single_test;
use std::collections::BTreeSet;

fn assert_placed(case: usize, order: &[u8], tests: u64) {
    let answer = search(&k(case), &vec![9; order.len()]);
    assert_eq!((answer.number, answer.group, answer.tests), (0, Mask::default(), tests), "K{case}");
    assert_eq!(answer.output, order, "K{case}");
    assert_eq!(check_order(&k(case), order).number, 0, "K{case}");
}

fn used_by_all(case: usize) -> Vec<u64> {
    let lent = k(case);
    let all: BTreeSet<usize> = (0..lent.n()).collect();
    let used = |row| single_test(&lent, row as u32, Mask::of(&without(&all, row))).used;
    all.iter().map(|&row| used(row)).collect()
}

fn assert_all_blocked(case: usize, tests: u64) {
    let lent = k(case);
    let all = Mask { low: (1 << lent.n()) - 1, high: 0 };
    let answer = search(&lent, &vec![9; lent.n()]);
    assert_eq!((answer.number, answer.group, answer.tests), (4, all, tests), "K{case}");
    assert_eq!(answer.output, vec![9; lent.n()], "K{case}");
    assert_eq!(check_group(&lent, all).number, 0, "K{case}");
}

#[test]
fn k1_to_k3_are_placed() {
    assert_placed(1, &[], 0);
    assert_placed(2, &[0], 1);
    assert_placed(3, &[1, 0], 2);
}

#[test]
fn k4_is_blocked() {
    assert_all_blocked(4, 3);
    assert_eq!(used_by_all(4), [6, 6, 6]);
}

#[test]
fn k5_is_placed() {
    assert_placed(5, &[1, 0, 2], 5);
}

#[test]
fn k6_and_k7_are_blocked() {
    assert_all_blocked(6, 4);
    assert_eq!(used_by_all(6), [34, 211, 217, 61]);
    assert_all_blocked(7, 4);
}

#[test]
fn k8_and_k9_differ_in_tests() {
    assert_placed(8, &[0, 1, 2], 6);
    assert_placed(9, &[2, 1, 0], 3);
}

#[test]
fn k10_policies() {
    let orders = [0, 1, 2].map(|policy| propose(&k(10), policy, &[9; 4]).output);
    assert_eq!(orders, [[0, 3, 1, 2], [0, 3, 1, 2], [3, 0, 1, 2]]);
}

#[test]
fn k11_book() {
    let answer = write(&k(11), &Verdict::none(), &[9; 512]);
    assert_eq!(answer.number, 0);
    assert_eq!(answer.output[510..], [0xFE, 0xFE]);
    assert_eq!(read(&answer.output, &[]).number, 0);
}
