//! The safe function over the linked library.
#![cfg(target_arch = "x86_64")]

use heralinda::{search, Answer};
use std::fs;
use std::path::Path;

const FILL: u8 = 0xA5;
const NO_ROW: u8 = 255;

fn example(name: &str) -> Vec<u8> {
    let path = Path::new(env!("CARGO_MANIFEST_DIR")).join("../../examples").join(name);
    fs::read(&path).unwrap_or_else(|fault| panic!("{}: {fault}", path.display()))
}

/// RFC 1071, carries folded in.
fn check_of(block: &[u8]) -> u16 {
    let words = block[..510].chunks(2).map(|word| u32::from(word[0]) << 8 | u32::from(word[1]));
    let mut sum: u32 = words.sum();
    while sum > 0xFFFF {
        sum = (sum & 0xFFFF) + (sum >> 16);
    }
    0xFFFF - sum as u16
}

/// Gives every block its right check.
fn seal(book: &mut [u8]) {
    for block in book.chunks_exact_mut(512) {
        let check = check_of(block);
        block[510..].copy_from_slice(&check.to_be_bytes());
    }
}

/// The same table with another verdict.
fn with_verdict(book: &[u8], verdict: u8, order: &[u8], group: &[u8]) -> Vec<u8> {
    let mut book = book.to_vec();
    book[5] = verdict;
    book[6..102].fill(NO_ROW);
    book[6..6 + order.len()].copy_from_slice(order);
    book[102..114].fill(0);
    book[102..102 + group.len()].copy_from_slice(group);
    seal(&mut book);
    book
}

fn assert_refused(book: &[u8], out_length: usize, number: u32) {
    let mut out = vec![FILL; out_length];
    assert_eq!(search(book, &mut out), Answer::Refused(number));
    assert!(out.iter().all(|&byte| byte == FILL));
}

#[test]
fn k5_has_an_order() {
    let book = example("k5.book");
    let mut out = vec![FILL; book.len()];
    assert_eq!(search(&book, &mut out), Answer::Order);
    assert_eq!(out, with_verdict(&book, 1, &[1, 0, 2], &[]));
}

#[test]
fn k6_is_blocked_and_written() {
    let book = example("blocked.book");
    let mut out = vec![FILL; book.len()];
    assert_eq!(search(&book, &mut out), Answer::Blocked);
    assert_eq!(out, with_verdict(&book, 2, &[], &[0b1111]));
}

#[test]
fn the_gateway_has_an_order() {
    let book = example("gateway.book");
    let order = [
        26, 25, 24, 23, 22, 17, 11, 10, 6, 3, 1, 2, 0, 18, 27, 9, 7, 16, 8, 4, 12, 13, 14, 15, 5,
        20, 21, 19, 28, 29, 30,
    ];
    let mut out = vec![FILL; book.len()];
    assert_eq!(search(&book, &mut out), Answer::Order);
    assert_eq!(out, with_verdict(&book, 1, &order, &[]));
}

#[test]
fn the_stored_verdict_plays_no_part() {
    let book = with_verdict(&example("k5.book"), 2, &[], &[0b1]);
    let mut out = vec![FILL; book.len()];
    assert_eq!(search(&book, &mut out), Answer::Order);
    assert_eq!(out, with_verdict(&book, 1, &[1, 0, 2], &[]));
}

#[test]
fn later_bytes_of_a_longer_output_stay() {
    let book = example("k5.book");
    let mut out = vec![FILL; book.len() + 7];
    assert_eq!(search(&book, &mut out), Answer::Order);
    assert_eq!(out[..book.len()], with_verdict(&book, 1, &[1, 0, 2], &[]));
    assert_eq!(out[book.len()..], [FILL; 7]);
}

#[test]
fn a_shorter_output_is_refused() {
    let book = example("k5.book");
    for length in [0, 1, book.len() - 1] {
        assert_refused(&book, length, 8);
    }
    assert_refused(&example("blocked.book"), book.len() - 1, 8);
}

#[test]
fn a_damaged_book_is_refused_and_the_output_is_as_it_was() {
    let book = example("gateway.book");
    for at in 0..book.len() {
        let mut damaged = book.clone();
        damaged[at] ^= 1;
        let in_number = at % 512 < 2;
        assert_refused(&damaged, book.len() + 1, if in_number { 10 } else { 11 });
    }
}

#[test]
fn fields_fillers_and_rows_are_refused_by_their_numbers() {
    let faults =
        [(2, 2, 12), (3, 0, 2), (4, 97, 1), (4, 43, 9), (5, 3, 13), (1021, 1, 13), (517, 0, 3)];
    for (at, value, number) in faults {
        let mut book = example("k5.book");
        book[at] = value;
        seal(&mut book);
        assert_refused(&book, book.len(), number);
    }
}

#[test]
fn books_of_wrong_length_are_refused() {
    for length in [0, 1, 511, 513, 2049, 2560] {
        assert_refused(&vec![0; length], 2560, 9);
    }
}
