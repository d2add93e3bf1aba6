//! Writes the example books to a folder; with `--large`, books of 96 rows to measure with.
#![forbid(unsafe_code)]

use reference::examples::{books, large_books};
use std::env;
use std::fs;
use std::path::Path;
use std::process::ExitCode;

const USAGE: &str = "usage: example_books [--large] FOLDER";

fn main() -> ExitCode {
    let arguments: Vec<String> = env::args().skip(1).collect();
    let (folder, books) = match &arguments[..] {
        [option, folder] if option == "--large" => (folder, large_books().to_vec()),
        [folder] => (folder, books().to_vec()),
        _ => {
            eprintln!("{USAGE}");
            return ExitCode::from(2);
        }
    };
    for (name, book) in books {
        if let Err(fault) = fs::write(Path::new(folder).join(name), book) {
            eprintln!("{name}: {fault}");
            return ExitCode::FAILURE;
        }
    }
    ExitCode::SUCCESS
}
