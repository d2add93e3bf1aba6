//! The example books as they are stored, and what is told of them.

use reference::audit::used_at;
use reference::book::parse;
use reference::examples::{books, gateway, large_books, GATEWAY, GATEWAY_CORES};
use reference::listing::listing;
use reference::search::audsley;
use std::fs;
use std::path::{Path, PathBuf};
use std::process::Command;

/// The highest of the lower levels that the page calls tight.
const TIGHT_FROM: usize = 13;
const EXAMPLE_BOOKS: &str = env!("CARGO_BIN_EXE_example_books");

fn examples() -> PathBuf {
    Path::new(env!("CARGO_MANIFEST_DIR")).join("../examples")
}

fn read(path: PathBuf) -> Vec<u8> {
    fs::read(&path).unwrap_or_else(|fault| panic!("{}: {fault}", path.display()))
}

/// Runs the program with the options and a new folder.
fn written(options: &[&str], name: &str) -> PathBuf {
    let folder = Path::new(env!("CARGO_TARGET_TMPDIR")).join(name);
    fs::create_dir_all(&folder).expect("the folder can be made");
    let run = Command::new(EXAMPLE_BOOKS).args(options).arg(&folder).status();
    assert!(run.expect("example_books runs").success());
    folder
}

#[test]
fn large_books_are_written_and_end_late() {
    let folder = written(&["--large"], "large_books");
    let headers = [
        "ORDER m=4 n=96 tests=4650 ",
        "ORDER m=32 n=96 tests=4160 ",
        "BLOCKED m=4 n=96 tests=551 ",
        "BLOCKED m=32 n=96 tests=2175 ",
        "REFUSED 3\n",
    ];
    for ((name, book), header) in large_books().into_iter().zip(headers) {
        assert_eq!(read(folder.join(name)), book, "{name}");
        assert!(listing(&book).starts_with(header), "{name}: {}", listing(&book));
    }
}

#[test]
fn the_stored_books_are_those_written() {
    let folder = written(&[], "example_books");
    for (name, book) in books() {
        assert_eq!(read(folder.join(name)), book, "{name}");
        assert_eq!(read(examples().join(name)), book, "{name}");
        assert!(parse(&book).is_ok(), "{name}");
    }
}

#[test]
fn the_gateway_is_accepted_and_not_trivially() {
    let table = gateway().checked().expect("its rows are in range");
    let found = audsley(&table);
    assert!(found.group.is_empty());
    assert!(found.tests > 5 * GATEWAY.len() as u64);
    for level in TIGHT_FROM..=GATEWAY.len() {
        let deadline = table.rows[found.order[level - 1]].d;
        assert!(20 * used_at(&table, &found.order, level) > 19 * deadline, "level {level}");
    }
}

#[test]
fn the_readme_tells_the_books() {
    let readme = String::from_utf8(read(examples().join("README.md"))).expect("it is text");
    for (row, task) in GATEWAY.iter().enumerate() {
        let [c, d, t] = task.row;
        let line = format!("| {row} | {} | {c} | {d} | {t} | {} |\n", task.name, task.note);
        assert!(readme.contains(&line.replace("|  |", "| |")), "{line}");
    }
    for (name, book) in books() {
        let header = listing(&book).lines().next().map(str::to_string);
        assert!(readme.contains(&header.expect("a listing has a header")), "{name}");
    }
    assert!(readme.contains(&format!("from level {TIGHT_FROM} down")));
    let assumed = GATEWAY.iter().filter(|task| !task.note.is_empty()).count();
    assert_eq!((assumed, GATEWAY_CORES), (1, 4));
}
