//! Compares the answers of a program, case by case, with those expected.

mod listings;
mod rounds;
mod subject;

pub use rounds::{compare_by_rounds, Comparison};
pub use subject::Subject;

use crate::exam::{refuses_before_work, Answer};
use crate::program::Program;
use std::io;
use std::ops::AddAssign;
use std::process::ExitStatus;

const BATCH: usize = 4000;
const SHOWN: usize = 3;

/// A case for a program that answers many of them in one run.
pub trait Asked {
    fn encode(&self) -> Vec<u8>;

    fn answer(&self) -> Answer;

    /// The case and both answers, for a reader.
    fn difference(&self, expected: &Answer, answered: &[u8]) -> String;
}

/// What has been seen.
#[derive(Clone, Copy, Debug, Default, PartialEq, Eq)]
pub struct Tally {
    pub inputs: usize,
    pub refused: usize,
    pub differences: usize,
}

impl AddAssign for Tally {
    fn add_assign(&mut self, more: Tally) {
        self.inputs += more.inputs;
        self.refused += more.refused;
        self.differences += more.differences;
    }
}

impl Tally {
    fn count(&mut self, refused: bool, difference: Option<String>) {
        self.inputs += 1;
        self.refused += usize::from(refused);
        if let Some(text) = difference {
            self.differ(&text);
        }
    }

    fn differ(&mut self, text: &str) {
        self.differences += 1;
        if self.differences <= SHOWN {
            println!("difference in {text}");
        }
    }

    /// A program that has answered everything must also end well.
    fn compare_end(&mut self, status: ExitStatus) {
        if !status.success() {
            self.differ(&format!("the end: {status}"));
        }
    }

    fn compare(&mut self, case: &impl Asked, expected: &Answer, answered: &[u8]) {
        let differs = answered != expected.to_bytes();
        let difference = differs.then(|| case.difference(expected, answered));
        self.count(refuses_before_work(expected.number()), difference);
    }

    fn compare_batch(&mut self, program: &Program, cases: &[impl Asked]) -> io::Result<()> {
        let run = program.start(cases.iter().flat_map(Asked::encode).collect())?;
        let expected: Vec<Answer> = cases.iter().map(Asked::answer).collect();
        let (output, status) = run.output()?;
        let mut rest = &output[..];
        for (case, expected) in cases.iter().zip(&expected) {
            let length = expected.to_bytes().len().min(rest.len());
            let (answered, behind) = rest.split_at(length);
            self.compare(case, expected, answered);
            rest = behind;
        }
        if !rest.is_empty() {
            self.differ(&format!("the length: {} bytes behind the last answer", rest.len()));
        }
        self.compare_end(status);
        Ok(())
    }
}

/// Puts the cases to the program, thousands in a run, and compares each answer whole.
fn compare<C: Asked>(program: &Program, mut cases: impl Iterator<Item = C>) -> io::Result<Tally> {
    let mut tally = Tally::default();
    loop {
        let batch: Vec<C> = cases.by_ref().take(BATCH).collect();
        if batch.is_empty() {
            return Ok(tally);
        }
        tally.compare_batch(program, &batch)?;
    }
}
