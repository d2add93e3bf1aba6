//! Answers by the independent definitions as the program named by the last argument does:
//! `examine`, `listing`, and for any other name `exam`. `--break K` corrupts every K-th answer; a
//! listing is one answer.
#![forbid(unsafe_code)]

use reference::comparison::Asked;
use reference::exam::{Case, Reader};
use reference::examine::HostCase;
use reference::listing::listing;
use std::env;
use std::io::{self, Read, Write};
use std::iter;

/// K of `--break K`; none without the option.
fn break_every() -> Option<usize> {
    let mut arguments = env::args().skip(1);
    arguments.find(|argument| argument == "--break")?;
    let every = arguments.next().and_then(|text| text.parse().ok());
    Some(every.filter(|&every| every > 0).expect("--break needs a number above 0"))
}

fn all_answers<C: Asked>(input: &[u8], decode: fn(&mut Reader) -> Option<C>) -> Vec<Vec<u8>> {
    let mut cases = Reader::new(input);
    iter::from_fn(|| decode(&mut cases)).map(|case| case.answer().to_bytes()).collect()
}

/// `examine_records` takes the search's cases as `exam` does.
fn answers(input: &[u8]) -> Vec<Vec<u8>> {
    match env::args().next_back().as_deref() {
        Some("listing") => vec![listing(input).into_bytes()],
        Some("examine") => all_answers(input, HostCase::decode),
        _ => all_answers(input, Case::decode),
    }
}

fn main() -> io::Result<()> {
    let break_every = break_every();
    let mut input = Vec::new();
    io::stdin().read_to_end(&mut input)?;
    let mut output = io::stdout().lock();
    for (count, mut answer) in (1..).zip(answers(&input)) {
        if break_every.is_some_and(|every| count % every == 0) {
            *answer.last_mut().expect("answers are not empty") ^= 1;
        }
        output.write_all(&answer)?;
    }
    output.flush()
}
