//! Writes the books that `tools/benchmark --count` measures to a folder: a file has those of one
//! size and side one behind another, and `empty` and `light` have one each.
#![forbid(unsafe_code)]

use reference::gen::border::{border_books, light_book, Side, SIZES};
use std::env;
use std::fs;
use std::path::Path;
use std::process::ExitCode;

fn main() -> ExitCode {
    let Some(folder) = env::args().nth(1) else {
        eprintln!("usage: benchmark_books FOLDER");
        return ExitCode::from(2);
    };
    let mut files = vec![("empty".to_owned(), light_book(0)), ("light".to_owned(), light_book(31))];
    for side in Side::ALL {
        files.extend(
            SIZES.map(|(n, m)| {
                (format!("{}-{n}-{m}", side.name()), border_books(side, n, m).concat())
            }),
        );
    }
    for (name, books) in files {
        if let Err(fault) = fs::write(Path::new(&folder).join(&name), books) {
            eprintln!("{name}: {fault}");
            return ExitCode::FAILURE;
        }
    }
    ExitCode::SUCCESS
}
