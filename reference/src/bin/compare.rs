//! Compares programs, answer by answer, with the independent definitions: the kinds of `exam`,
//! the host entry put through `examine`, the entry for records put through `examine_records`, and
//! `listing`; with `--only` those named. RUN is the command that runs a program when its name is
//! added. Exit status 1 on any difference.
#![forbid(unsafe_code)]

use reference::comparison::{compare_by_rounds, Subject, Tally};
use reference::options::CompareOptions;
use std::env;
use std::process::ExitCode;

const USAGE: &str = "usage: compare (--inputs N | --minutes M) [--only NAME,NAME...] [--seed S] \
                     -- RUN [ARGUMENT...]";

/// The names as `--only` takes them.
fn names() -> String {
    let names: Vec<String> =
        Subject::all().map(|subject| subject.name().replace(' ', "-")).collect();
    names.join(",")
}

fn print_line(name: &str, Tally { inputs, refused, differences }: Tally) {
    println!("{name}: {inputs} inputs ({refused} malformed), {differences} differences");
}

fn main() -> ExitCode {
    let options = match CompareOptions::parse(env::args()) {
        Ok(options) => options,
        Err(fault) => {
            eprintln!("{fault}\n{USAGE}\nnames: {}", names());
            return ExitCode::from(2);
        }
    };
    let comparisons = match compare_by_rounds(&options) {
        Ok(comparisons) => comparisons,
        Err(fault) => {
            eprintln!("{}: {fault}", options.runner.path);
            return ExitCode::FAILURE;
        }
    };
    let mut total = Tally::default();
    for comparison in comparisons {
        print_line(comparison.subject.name(), comparison.tally);
        total += comparison.tally;
    }
    print_line("total", total);
    ExitCode::from(u8::from(total.differences > 0))
}
