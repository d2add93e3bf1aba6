//! Writes cases and their expected answers to two files, as standard input
//! and output of the program `exam`.
#![forbid(unsafe_code)]

use reference::gen::{Generator, Size};
use reference::options::CasesOptions;
use std::env;
use std::fs;
use std::process::ExitCode;

const USAGE: &str = "usage: cases STDIN_FILE STDOUT_FILE [--kinds 1,2,3] [--inputs N] [--seed S]";

fn write_files(options: &CasesOptions) -> std::io::Result<usize> {
    let (mut cases, mut answers) = (Vec::new(), Vec::new());
    for &kind in &options.kinds {
        for case in Generator::new(kind, Size::Small, options.seed).take(options.inputs) {
            cases.extend(case.encode());
            answers.extend(case.answer().to_bytes());
        }
    }
    fs::write(&options.paths[0], &cases)?;
    fs::write(&options.paths[1], &answers)?;
    Ok(cases.len() + answers.len())
}

fn main() -> ExitCode {
    let options = match CasesOptions::parse(env::args()) {
        Ok(options) => options,
        Err(fault) => {
            eprintln!("{fault}\n{USAGE}");
            return ExitCode::from(2);
        }
    };
    match write_files(&options) {
        Ok(bytes) => {
            println!("{bytes} bytes in both files");
            ExitCode::SUCCESS
        }
        Err(fault) => {
            eprintln!("{fault}");
            ExitCode::FAILURE
        }
    }
}
