//! `compare` sees no difference where there is none, and sees one where there is.

use std::collections::BTreeMap;
use std::process::{Command, Output};

const COMPARE: &str = env!("CARGO_BIN_EXE_compare");
const STAND_IN: &str = env!("CARGO_BIN_EXE_stand_in");
/// Writes nothing to standard output without its two files.
const CASES: &str = env!("CARGO_BIN_EXE_cases");
const NAMES: [&str; 11] = [
    "test",
    "search",
    "step",
    "policy",
    "check order",
    "check group",
    "write book",
    "read book",
    "host",
    "records",
    "listing",
];
/// Those that answer many cases in one run.
const BUT_LISTING: &[&str] = NAMES.split_at(10).0;

fn run(arguments: &[&str]) -> Output {
    Command::new(COMPARE).args(arguments).output().expect("compare runs")
}

/// One comparison alone.
fn compare(name: &str, inputs: usize, program: &[&str]) -> Output {
    let (name, inputs) = (name.replace(' ', "-"), inputs.to_string());
    run(&[&["--only", &name, "--inputs", &inputs, "--"], program].concat())
}

fn text(output: &Output) -> String {
    String::from_utf8_lossy(&output.stdout).to_string()
}

/// The inputs and the differences of each line that counts, by name.
fn counts(output: &Output) -> BTreeMap<String, (usize, usize)> {
    let number = |text: &str| text.split(' ').next().and_then(|text| text.parse().ok());
    let count = |line: &str| {
        let (name, counts) = line.split_once(": ")?;
        let (inputs, differences) = counts.split_once(" malformed), ")?;
        Some((name.to_string(), (number(inputs)?, number(differences)?)))
    };
    text(output).lines().filter_map(count).collect()
}

/// The line in all must be the last, and the sum of the others.
fn assert_total(output: &Output) {
    let mut counts = counts(output);
    let total = counts.remove("total");
    let sum = counts.values().fold((0, 0), |sum, more| (sum.0 + more.0, sum.1 + more.1));
    assert_eq!(total, Some(sum));
    assert!(text(output).lines().last().is_some_and(|line| line.starts_with("total: ")));
}

/// The comparison alone must count so many, show at most three of them, and end with status 1.
fn assert_seen(name: &str, output: &Output, inputs: usize, differences: usize) {
    assert_eq!(output.status.code(), Some(1), "{name}");
    let counted = [name, "total"].map(|line| (line.to_string(), (inputs, differences)));
    assert_eq!(counts(output), counted.into(), "{name}");
    // A case of records is a case of the search.
    let shown_as = if name == "records" { "search" } else { name };
    let start = format!("difference in {shown_as} ");
    let shown = text(output).lines().filter(|line| line.starts_with(&start)).count();
    assert_eq!(shown, differences.min(3), "{name}");
}

#[test]
fn every_comparison_takes_its_inputs_and_agrees() {
    let output = run(&["--inputs", "1201", "--", STAND_IN]);
    assert_eq!(output.status.code(), Some(0));
    let counts = counts(&output);
    for name in NAMES {
        let inputs = if name == "listing" { 61 } else { 1201 };
        assert_eq!(counts[name], (inputs, 0), "{name}");
    }
    assert_eq!(counts.len(), NAMES.len() + 1);
    assert_eq!(text(&output).lines().count(), counts.len());
    assert_total(&output);
}

#[test]
fn a_corrupted_answer_is_seen_in_each() {
    for name in BUT_LISTING {
        for (every, differences) in [("300", 1), ("150", 2), ("100", 3), ("50", 6)] {
            let output = compare(name, 300, &[STAND_IN, "--break", every]);
            assert_seen(name, &output, 300, differences);
        }
    }
}

#[test]
fn corrupted_answers_are_summed() {
    let output = run(&["--inputs", "20", "--", STAND_IN, "--break", "20"]);
    assert_eq!(output.status.code(), Some(1));
    let counts = counts(&output);
    for name in NAMES {
        let expected = if name == "listing" { (1, 0) } else { (20, 1) };
        assert_eq!(counts[name], expected, "{name}");
    }
    assert_total(&output);
}

#[test]
fn another_last_byte_of_a_listing_is_seen() {
    let output = compare("listing", 1201, &[STAND_IN, "--break", "1"]);
    assert_seen("listing", &output, 61, 61);
    let text = text(&output);
    assert!(text.starts_with("difference in listing of book=[] length=0\n"));
    let line = r#"  line 1: expected "REFUSED 9\n", answered "REFUSED 9\u{b}""#;
    assert_eq!(text.lines().nth(1), Some(line));
}

#[test]
fn a_program_that_answers_nothing_is_seen() {
    for name in BUT_LISTING {
        assert_seen(name, &compare(name, 300, &["true"]), 300, 300);
    }
    let listing = compare("listing", 1201, &["true"]);
    assert_seen("listing", &listing, 61, 61);
    assert!(text(&listing).contains(", answered nothing\n"));
}

#[test]
fn an_output_cut_short_is_seen() {
    let shorter = ["sh", "-c", r#""$0" "$@" | head -c 7"#, STAND_IN];
    for name in BUT_LISTING {
        assert_seen(name, &compare(name, 20, &shorter), 20, 20);
    }
    let listing = compare("listing", 20, &shorter);
    assert_seen("listing", &listing, 1, 1);
    assert!(text(&listing).contains(r#"expected "REFUSED 9\n", answered "REFUSED""#));
}

#[test]
fn an_output_that_is_too_long_is_seen() {
    let longer = ["sh", "-c", r#""$0" "$@"; echo"#, STAND_IN];
    for name in BUT_LISTING {
        let output = compare(name, 20, &longer);
        assert_eq!(output.status.code(), Some(1), "{name}");
        assert_eq!(counts(&output)[*name], (20, 1), "{name}");
        assert!(text(&output).starts_with("difference in the length: 1 bytes behind the last"));
    }
    let listing = compare("listing", 20, &longer);
    assert_seen("listing", &listing, 1, 1);
    assert!(text(&listing).contains(r#"line 2: expected nothing, answered "\n""#));
}

#[test]
fn a_program_that_ends_badly_is_seen() {
    let fails = ["sh", "-c", r#""$0" "$@"; exit 3"#, STAND_IN];
    for name in NAMES {
        let output = compare(name, 20, &fails);
        assert_eq!(output.status.code(), Some(1), "{name}");
        let inputs = if name == "listing" { 1 } else { 20 };
        assert_eq!(counts(&output)[name], (inputs, 1), "{name}");
        assert_eq!(text(&output).lines().next(), Some("difference in the end: exit status: 3"));
    }
}

#[test]
fn only_those_named_are_compared() {
    for (only, names) in [
        ("read-book,test", &["test", "read book"][..]),
        ("listing,check order,records", &["check order", "records", "listing"]),
        ("host,host", &["host"]),
    ] {
        let output = run(&["--inputs", "10", "--only", only, "--", STAND_IN]);
        assert_eq!(output.status.code(), Some(0));
        let lines = [names, &["total"]].concat();
        let text = text(&output);
        assert!(text.lines().filter_map(|line| line.split(':').next()).eq(lines), "{text}");
    }
}

#[test]
fn another_seed_gives_other_inputs() {
    let options = ["--inputs", "500", "--only", "policy,host"];
    let text = |seed| text(&run(&[&options[..], &["--seed", seed, "--", CASES]].concat()));
    assert_eq!(text("1"), text("1"));
    assert_ne!(text("1"), text("2"));
}

#[test]
fn a_length_of_time_is_rounds_of_every_comparison() {
    let only = ["--only", "policy,host,records,listing"];
    let output = run(&[&["--minutes", "0.0001"], &only[..], &["--", STAND_IN]].concat());
    assert_eq!(output.status.code(), Some(0));
    let counts = counts(&output);
    let rounds = counts["policy"].0 / 2000;
    assert!(rounds > 0);
    let inputs = ["policy", "host", "records", "listing"].map(|name| counts[name].0);
    assert_eq!(inputs, [2000, 2000, 2000, 100].map(|inputs| rounds * inputs));
}

#[test]
fn a_program_that_does_not_start_is_seen() {
    for name in NAMES {
        let output = compare(name, 1, &["no such program"]);
        assert_eq!(output.status.code(), Some(1), "{name}");
        assert!(output.stdout.is_empty(), "{name}");
        assert!(output.stderr.starts_with(b"no such program: "), "{name}");
    }
}

#[test]
fn wrong_options_are_refused() {
    for arguments in [
        &["--", STAND_IN][..],
        &["--inputs", "--", STAND_IN],
        &["--inputs", "0", "--", STAND_IN],
        &["--minutes", "-1", "--", STAND_IN],
        &["--inputs", "1", "--only", "--", STAND_IN],
        &["--inputs", "1", "--only", "", "--", STAND_IN],
        &["--inputs", "1", "--only", "test,9", "--", STAND_IN],
        &["--inputs", "1", "--cores", "2", "--", STAND_IN],
        &["--inputs", "1", "--"],
        &["--inputs", "1", STAND_IN],
        &["--inputs", "1"],
        &["--"],
        &[STAND_IN],
        &[],
    ] {
        assert_eq!(run(arguments).status.code(), Some(2), "{arguments:?}");
    }
}
