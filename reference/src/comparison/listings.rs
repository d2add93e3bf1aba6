//! Compares the text of the listing program, one run for each book.

use super::Tally;
use crate::exam::runs;
use crate::listing::listing;
use crate::program::{Program, Run};
use std::io;

const RUNS_AT_ONCE: usize = 2;

/// A line with its end visible.
fn line_text(text: &str, line: usize) -> String {
    text.split_inclusive('\n').nth(line).map_or("nothing".to_string(), |line| format!("{line:?}"))
}

/// The book and the first line that differs, for a reader.
fn difference(book: &[u8], expected: &str, answered: &[u8]) -> String {
    let answered = &String::from_utf8_lossy(answered);
    let differs = |&line: &usize| line_text(expected, line) != line_text(answered, line);
    let line = (0..).find(differs).expect("the texts differ");
    let (expected, answered) = (line_text(expected, line), line_text(answered, line));
    let lines = format!("line {}: expected {expected}, answered {answered}", line + 1);
    format!("listing of book={} length={}\n  {lines}", runs(book), book.len())
}

fn compare_one(tally: &mut Tally, book: &[u8], answered: &[u8]) {
    let expected = listing(book);
    let differs = answered != expected.as_bytes();
    let difference = differs.then(|| difference(book, &expected, answered));
    tally.count(expected.starts_with("REFUSED"), difference);
}

/// Puts each book to a run of its own and compares the text.
pub(super) fn compare_listings(
    program: &Program,
    mut books: impl Iterator<Item = Vec<u8>>,
) -> io::Result<Tally> {
    let mut tally = Tally::default();
    loop {
        let batch: Vec<Vec<u8>> = books.by_ref().take(RUNS_AT_ONCE).collect();
        if batch.is_empty() {
            return Ok(tally);
        }
        let runs: Vec<Run> =
            batch.iter().map(|book| program.start(book.clone())).collect::<io::Result<_>>()?;
        for (book, run) in batch.iter().zip(runs) {
            let (answered, status) = run.output()?;
            compare_one(&mut tally, book, &answered);
            tally.compare_end(status);
        }
    }
}
