use super::*;
use crate::exam::{refuses_before_work, KINDS};
use crate::gen::limits::books::{books, hosts};
use crate::host::host;
use crate::listing::listing;
use std::collections::BTreeMap;
use std::fs;
use std::path::Path;

/// A limit as the page has it.
struct Line {
    file: &'static str,
    function: &'static str,
    limit: &'static str,
    at: String,
    number: u64,
}

fn lines<C>(
    file: &'static str,
    function: &'static str,
    limits: Vec<Limit<C>>,
) -> impl Iterator<Item = Line> {
    let line = move |Limit { limit, at, number, .. }| Line { file, function, limit, at, number };
    limits.into_iter().map(line)
}

/// Every limit of every function.
fn all_lines() -> Vec<Line> {
    let mut all = Vec::new();
    for (kind, name) in KINDS {
        for (file, limits) in by_file(kind) {
            all.extend(lines(file, name, limits));
        }
    }
    all.extend(lines("books", "host", hosts()));
    all.extend(lines("rooms", "host", rooms::hosts()));
    all.extend(lines("books", "listing", books()));
    all
}

#[test]
fn every_case_gets_the_number_promised() {
    for (kind, name) in KINDS {
        for limit in by_file(kind).into_iter().flat_map(|(_, limits)| limits) {
            let Limit { limit, at, case, number } = limit;
            assert_eq!(case.answer().number(), number, "{name}: {limit}: {at}: {case}");
        }
    }
}

#[test]
fn the_host_entry_gives_the_number_promised() {
    for Limit { limit, at, case, number } in hosts().into_iter().chain(rooms::hosts()) {
        assert_eq!(host(&case.book, &case.output).number, number, "{limit}: {at}");
    }
}

#[test]
fn the_listing_gives_the_number_promised() {
    for Limit { limit, at, case, number } in books() {
        let start = if number == 0 { "ORDER ".to_string() } else { format!("REFUSED {number}\n") };
        assert!(listing(&case).starts_with(&start), "{limit}: {at}");
    }
}

/// The places of a function at a limit by number, such as `0 / n − 1: 15; n: 4`.
fn cell(lines: &[&Line], refused: bool) -> String {
    let mut by_number: Vec<(u64, Vec<&str>)> = Vec::new();
    for line in lines.iter().filter(|line| refuses_before_work(line.number) == refused) {
        let at = line.at.as_str();
        match by_number.iter_mut().find(|(number, _)| *number == line.number) {
            Some((_, places)) if places.contains(&at) => (),
            Some((_, places)) => places.push(at),
            None => by_number.push((line.number, vec![at])),
        }
    }
    let text = |(number, places): &(u64, Vec<&str>)| format!("{}: {number}", places.join(" / "));
    by_number.iter().map(text).collect::<Vec<_>>().join("; ")
}

/// The rows of one limit, functions with the same cells in one.
fn rows_of(lines: &[&Line]) -> Vec<String> {
    let mut rows: Vec<(String, Vec<&str>)> = Vec::new();
    for of_function in lines.chunk_by(|a, b| a.function == b.function) {
        let cells = format!("{} | {}", cell(of_function, false), cell(of_function, true));
        let function = of_function[0].function;
        match rows.iter_mut().find(|(known, _)| *known == cells) {
            Some((_, functions)) => functions.push(function),
            None => rows.push((cells, vec![function])),
        }
    }
    let limit = lines[0].limit;
    rows.iter().map(|(cells, of)| format!("| {limit} | {} | {cells} |", of.join(", "))).collect()
}

/// The table of one file.
fn table_of(all: &[Line], file: &str) -> String {
    let of_file: Vec<&Line> = all.iter().filter(|line| line.file == file).collect();
    let mut limits: Vec<&str> = Vec::new();
    for line in &of_file {
        if !limits.contains(&line.limit) {
            limits.push(line.limit);
        }
    }
    let lines = |limit: &&str| -> Vec<&Line> {
        of_file.iter().filter(|line| line.limit == *limit).copied().collect()
    };
    limits.iter().flat_map(|limit| rows_of(&lines(limit))).map(|row| row + "\n").collect()
}

#[test]
fn the_page_has_every_limit() {
    let path = Path::new(env!("CARGO_MANIFEST_DIR")).join("../docs/LIMITS.md");
    let page = fs::read_to_string(&path).expect("docs/LIMITS.md can be read");
    let all = all_lines();
    for (file, _) in by_file(1) {
        let table = table_of(&all, file);
        let table = format!("|---|---|---|---|\n{table}\n");
        assert!(format!("{page}\n").contains(&table), "{file}:\n{table}");
    }
}

#[test]
fn a_place_has_one_number() {
    let mut numbers = BTreeMap::new();
    for Line { function, limit, at, number, .. } in all_lines() {
        let place = (function, limit, at);
        let known = *numbers.entry(place.clone()).or_insert(number);
        assert_eq!(known, number, "{place:?}");
    }
}

#[test]
fn the_share_of_the_gate_holds_every_limit() {
    const GATE: usize = 20_000;
    assert!(KINDS.iter().all(|&(kind, _)| cases(kind).count() < GATE / 4));
    assert!(host_cases().count() < GATE / 4 && super::books().count() < GATE / 20);
}
