//! Runs accepted tables in random legal schedules and counts the late jobs.
//! Exit status 1 if a job is late. With `--carry-ins-fewer K` the search accepts
//! too much; exit status 1 if then no job is late.
#![forbid(unsafe_code)]

use reference::options::SimulateOptions;
use reference::simulate::simulate;
use std::env;
use std::process::ExitCode;

const USAGE: &str = "usage: simulate [--tables N] [--seed S] [--carry-ins-fewer K]";

fn main() -> ExitCode {
    let options = match SimulateOptions::parse(env::args()) {
        Ok(options) => options,
        Err(fault) => {
            eprintln!("{fault}\n{USAGE}");
            return ExitCode::from(2);
        }
    };
    let tally = simulate(&options);
    println!("{tally}");
    if tally.is_expected(&options) {
        return ExitCode::SUCCESS;
    }
    if let Some(late) = tally.first_late {
        eprintln!("{late}");
    }
    ExitCode::FAILURE
}
