//! `simulate` sees no late job where the test is whole, and sees one where it is not.

use std::process::{Command, Output};

const SIMULATE: &str = env!("CARGO_BIN_EXE_simulate");

fn simulate(arguments: &[&str]) -> Output {
    Command::new(SIMULATE).args(arguments).output().expect("simulate runs")
}

fn line(output: &Output) -> String {
    let text = String::from_utf8_lossy(&output.stdout);
    assert_eq!(text.lines().count(), 1);
    text.trim_end().to_string()
}

#[test]
fn no_job_is_late() {
    let output = simulate(&["--tables", "60"]);
    assert_eq!(output.status.code(), Some(0));
    assert!(line(&output).starts_with("60 tables, "));
    assert!(line(&output).ends_with(" jobs, 0 late jobs"));
}

#[test]
fn a_carry_in_fewer_makes_jobs_late() {
    let output = simulate(&["--tables", "100", "--carry-ins-fewer", "1"]);
    assert_eq!(output.status.code(), Some(0));
    assert!(!line(&output).ends_with(" jobs, 0 late jobs"));
}

#[test]
fn a_carry_in_fewer_without_a_late_job_is_a_failure() {
    let output = simulate(&["--tables", "0", "--carry-ins-fewer", "1"]);
    assert_eq!(output.status.code(), Some(1));
    assert_eq!(line(&output), "0 tables, 0 accepted: 0 schedules, 0 jobs, 0 late jobs");
}

#[test]
fn unknown_options_are_refused() {
    for arguments in [&["--tables"][..], &["--tables", "many"], &["--cores", "2"]] {
        assert_eq!(simulate(arguments).status.code(), Some(2));
    }
}
