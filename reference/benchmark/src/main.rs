//! Times the host entry of the linked library beside the independent program and a direct one,
//! each from book to book, in one run. They must write the same books.
//!
//! Rounds take turns between the programs, so that a slow moment of the machine meets all of
//! them. A time is the median of the rounds, for one table; a ratio is the median of the rounds'
//! own ratios.
#![forbid(unsafe_code)]

mod direct;

use heralinda::{search, Answer};
use reference::gen::border::{border_books, Side, SIZES, TABLES};
use reference::host::host;
use std::hint::black_box;
use std::time::Instant;

const ROUNDS: usize = 25;
const LONGEST_BOOK: usize = 2048;

/// From a book to the same table with its verdict.
type Program = fn(&[u8]) -> Vec<u8>;

fn ours(book: &[u8]) -> Vec<u8> {
    let mut out = vec![0; book.len()];
    match search(book, &mut out) {
        Answer::Order | Answer::Blocked => out,
        Answer::Refused(number) => panic!("refused {number}"),
    }
}

fn independent(book: &[u8]) -> Vec<u8> {
    let mut out = host(book, &[0; LONGEST_BOOK]).output;
    out.truncate(book.len());
    out
}

fn direct(book: &[u8]) -> Vec<u8> {
    direct::host(book).expect("a book that can be read")
}

const PROGRAMS: [Program; 3] = [ours, independent, direct];

fn assert_same(books: &[Vec<u8>]) {
    for book in books {
        let [ours, independent, direct] = PROGRAMS.map(|program| program(book));
        assert!(ours == independent && ours == direct);
    }
}

/// Microseconds for a book.
fn time(program: Program, books: &[Vec<u8>]) -> f64 {
    let start = Instant::now();
    for book in books {
        black_box(program(black_box(book)));
    }
    start.elapsed().as_secs_f64() * 1e6 / books.len() as f64
}

fn median(mut times: Vec<f64>) -> f64 {
    times.sort_by(f64::total_cmp);
    times[times.len() / 2]
}

/// The times of the programs in each round.
struct Rounds(Vec<[f64; 3]>);

impl Rounds {
    fn measure(books: &[Vec<u8>]) -> Rounds {
        assert_same(books);
        Rounds((0..ROUNDS).map(|_| PROGRAMS.map(|program| time(program, books))).collect())
    }

    fn median_of(&self, value: impl Fn(&[f64; 3]) -> f64) -> f64 {
        median(self.0.iter().map(value).collect())
    }

    fn times(&self) -> [f64; 3] {
        [0, 1, 2].map(|program| self.median_of(|round| round[program]))
    }

    /// Ours to the independent and to the direct program.
    fn ratios(&self) -> [f64; 2] {
        [1, 2].map(|program| self.median_of(|round| round[0] / round[program]))
    }
}

/// The lines of one verdict, and by which power of n the time grows.
fn print_lines(side: Side) {
    let sizes = SIZES.map(|(n, m)| Rounds::measure(&border_books(side, n, m)));
    let verdict = side.name();
    for ((n, m), rounds) in SIZES.into_iter().zip(&sizes) {
        let [ours, independent, direct] = rounds.times();
        let [first, second] = rounds.ratios();
        println!(
            "{n:>4} {m:>6}  {verdict:<9}{ours:>8.1}{independent:>13.1}{first:>8.2}{direct:>9.1}{second:>8.2}"
        );
    }
    let (few, many) = (sizes[1].times(), sizes[2].times());
    let [ours, independent, direct] =
        [0, 1, 2].map(|program| (many[program] / few[program]).log2());
    println!(
        "{verdict}, 48 to 96 rows on 4 cores: n to the {ours:.1} (ours), {independent:.1} (independent), {direct:.1} (direct)"
    );
}

fn main() {
    println!("microseconds from book to book: median of {ROUNDS} rounds over {TABLES} tables");
    println!("rows  cores  verdict      ours  independent   ratio   direct   ratio");
    Side::ALL.into_iter().for_each(print_lines);
}
