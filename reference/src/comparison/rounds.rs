//! Compares subjects by rounds.
//!
//! Each draws from one endless sequence, round after round, so that the K cases, the limits and
//! the full ranges come once in a run, however long it is.

use super::listings::compare_listings;
use super::{compare, Asked, Subject, Tally};
use crate::gen::{host_cases, records_cases, Books, Generator, Size};
use crate::options::{CompareOptions, Extent};
use crate::program::Program;
use std::io;
use std::time::Instant;

/// Inputs of each subject in a round, which takes some seconds.
const ROUND: usize = 2000;
/// A listing is a run of its own, so that it comes once in so many inputs.
const INPUTS_PER_LISTING: usize = 20;

/// Puts the next inputs of its sequence to its program.
type Round = Box<dyn FnMut(usize) -> io::Result<Tally>>;

pub struct Comparison {
    pub subject: Subject,
    pub tally: Tally,
    round: Round,
}

fn of_cases<C: Asked>(program: Program, mut cases: impl Iterator<Item = C> + 'static) -> Round {
    Box::new(move |inputs| compare(&program, cases.by_ref().take(inputs)))
}

fn of_listings(program: Program, mut books: Books) -> Round {
    Box::new(move |inputs| {
        compare_listings(&program, books.by_ref().take(inputs.div_ceil(INPUTS_PER_LISTING)))
    })
}

fn comparison(subject: Subject, runner: &Program, seed: u64) -> Comparison {
    let program = runner.with(subject.program());
    let round = match subject {
        Subject::Kind(kind) => of_cases(program, Generator::new(kind, Size::Full, seed)),
        Subject::Host => of_cases(program, host_cases(seed)),
        Subject::Records => of_cases(program, records_cases(seed)),
        Subject::Listing => of_listings(program, Books::new(seed)),
    };
    Comparison { subject, tally: Tally::default(), round }
}

fn round(comparisons: &mut [Comparison], inputs: usize) -> io::Result<()> {
    for comparison in comparisons {
        comparison.tally += (comparison.round)(inputs)?;
    }
    Ok(())
}

/// One round of the inputs asked for, or rounds until the time is over, one at least.
pub fn compare_by_rounds(options: &CompareOptions) -> io::Result<Vec<Comparison>> {
    let CompareOptions { extent, subjects, seed, runner } = options;
    let mut comparisons: Vec<Comparison> =
        subjects.iter().map(|&subject| comparison(subject, runner, *seed)).collect();
    match *extent {
        Extent::Inputs(inputs) => round(&mut comparisons, inputs)?,
        Extent::Time(time) => {
            let start = Instant::now();
            round(&mut comparisons, ROUND)?;
            while start.elapsed() < time {
                round(&mut comparisons, ROUND)?;
            }
        }
    }
    Ok(comparisons)
}
