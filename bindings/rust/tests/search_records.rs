//! The safe function for tasks as records, over the linked library.
#![cfg(target_arch = "x86_64")]

use heralinda::{search_records, Found, Set, Task};

const FILL: u8 = 0xA5;
const NO_ROWS: Set = Set { low: 0, high: 0 };

fn tasks(rows: &[[u32; 3]]) -> Vec<Task> {
    rows.iter().map(|&[c, d, t]| Task { c, d, t }).collect()
}

/// An order is found, and the bytes behind it stay.
fn assert_order(rows: &[[u32; 3]], m: u32, order: &[u8], tests: u64) {
    let mut out = vec![FILL; order.len() + 7];
    let found = search_records(&tasks(rows), m, &mut out);
    assert_eq!(found, Found { number: 0, row: 0, group: NO_ROWS, tests });
    assert_eq!(out[..order.len()], *order);
    assert_eq!(out[order.len()..], [FILL; 7]);
}

fn assert_as_it_was(tasks: &[Task], m: u32, out_length: usize, expected: Found) {
    let mut out = vec![FILL; out_length];
    assert_eq!(search_records(tasks, m, &mut out), expected);
    assert!(out.iter().all(|&byte| byte == FILL));
}

fn assert_blocked(rows: &[[u32; 3]], m: u32, group: Set, tests: u64) {
    let expected = Found { number: 4, row: 0, group, tests };
    assert_as_it_was(&tasks(rows), m, rows.len(), expected);
    assert_as_it_was(&tasks(rows), m, rows.len() + 7, expected);
}

fn assert_refused(tasks: &[Task], m: u32, out_length: usize, number: u32, row: usize) {
    assert_as_it_was(tasks, m, out_length, Found { number, row, group: NO_ROWS, tests: 0 });
}

const K6: [[u32; 3]; 4] = [[23, 33, 33], [106, 210, 214], [58, 216, 217], [46, 60, 64]];

#[test]
fn the_k_cases_that_have_an_order() {
    assert_order(&[], 1, &[], 0);
    assert_order(&[[5, 5, 5]], 1, &[0], 1);
    assert_order(&[[5, 5, 5]; 2], 2, &[1, 0], 2);
    assert_order(&K6[..3], 2, &[1, 0, 2], 5);
    assert_order(&[[1, 1, 10], [1, 2, 10], [1, 3, 10]], 1, &[0, 1, 2], 6);
    assert_order(&[[1, 3, 10], [1, 2, 10], [1, 1, 10]], 1, &[2, 1, 0], 3);
}

#[test]
fn the_k_cases_that_are_blocked() {
    assert_blocked(&[[5, 5, 5]; 3], 2, Set { low: 0b111, high: 0 }, 3);
    assert_blocked(&K6, 3, Set { low: 0b1111, high: 0 }, 4);
    assert_blocked(
        &[[1, 2, 3], [1, 2, 3], [2, 4, 4], [2, 4, 4]],
        2,
        Set { low: 0b1111, high: 0 },
        4,
    );
}

#[test]
fn as_many_records_as_a_table_holds() {
    let rows: Vec<[u32; 3]> = (1..=96).map(|d| [1, d, 1000]).collect();
    let order: Vec<u8> = (0..96).collect();
    assert_order(&rows, 1, &order, 96 * 97 / 2);
    assert_blocked(&[[5, 5, 5]; 96], 2, Set { low: u64::MAX, high: u64::MAX >> 32 }, 96);
}

#[test]
fn more_records_are_refused_before_anything_else() {
    for count in [97, 98, 1000, 100_000] {
        assert_refused(&vec![Task { c: 1, d: 1, t: 1 }; count], 1, count, 1, 0);
        assert_refused(&vec![Task { c: 0, d: 0, t: 0 }; count], 0, 0, 1, 0);
    }
}

#[test]
fn the_cores_are_judged_before_the_rows() {
    for m in [0, 33, 256 + 2, u32::MAX] {
        assert_refused(&[], m, 0, 2, 0);
        assert_refused(&tasks(&[[5, 5, 5]; 3]), m, 3, 2, 0);
        assert_refused(&tasks(&[[0, 0, 0]; 3]), m, 0, 2, 0);
    }
}

#[test]
fn the_lowest_row_out_of_range_is_named() {
    let over = 10_000_001;
    for wrong in [[0, 5, 5], [6, 5, 5], [5, 5, 4], [5, 5, over], [over; 3], [u32::MAX; 3]] {
        for row in [0, 1, 95] {
            let mut rows = [[5, 5, 5]; 96];
            rows[95] = [0, 0, 0];
            rows[row] = wrong;
            assert_refused(&tasks(&rows), 2, 96, 3, row);
            assert_refused(&tasks(&rows), 2, 0, 3, row);
        }
    }
}

#[test]
fn a_shorter_output_is_refused_before_the_work() {
    for length in [0, 1, 2] {
        assert_refused(&tasks(&K6[..3]), 2, length, 8, 0);
        assert_refused(&tasks(&[[5, 5, 5]; 3]), 2, length, 8, 0);
    }
}
