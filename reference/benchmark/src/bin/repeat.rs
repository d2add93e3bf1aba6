//! Runs one program over the books of a file, each of so many bytes, so often:
//! `repeat ours|direct FILE LENGTH TIMES`. `tools/benchmark --count` takes the instructions of
//! two such runs from one another. What it writes depends on every verdict found.
#![forbid(unsafe_code)]

#[path = "../direct.rs"]
mod direct;

use heralinda::{search, Answer};
use std::env;
use std::fs;

const LONGEST_BOOK: usize = 2048;

/// From a book to the same table with its verdict, in a buffer as long.
type Program = fn(&[u8], &mut [u8]);

fn ours(book: &[u8], out: &mut [u8]) {
    if let Answer::Refused(number) = search(book, out) {
        panic!("refused {number}");
    }
}

fn direct(book: &[u8], out: &mut [u8]) {
    out.copy_from_slice(&direct::host(book).expect("a book that can be read"));
}

/// The check of block 0, which holds the verdict.
fn check(out: &[u8]) -> u64 {
    u64::from(out[510]) * 256 + u64::from(out[511])
}

fn run(program: Program, books: &[u8], length: usize, times: usize) -> u64 {
    let mut out = [0; LONGEST_BOOK];
    let mut checks = 0;
    for _ in 0..times {
        for book in books.chunks(length) {
            program(book, &mut out[..length]);
            checks = (checks * 7 + check(&out)) % 1_000_003;
        }
    }
    checks
}

fn main() {
    let arguments: Vec<String> = env::args().skip(1).collect();
    if let [program, file, length, times] = &arguments[..] {
        let program = if program == "ours" { ours } else { direct };
        let books = fs::read(file).expect("a file of books");
        let length = length.parse().expect("a length");
        println!("{}", run(program, &books, length, times.parse().expect("a number")));
    } else {
        panic!("usage: repeat ours|direct FILE LENGTH TIMES");
    }
}
