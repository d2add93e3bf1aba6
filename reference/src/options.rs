//! Command-line options of the programs.

use crate::comparison::Subject;
use crate::exam::KINDS;
use crate::program::Program;
use std::time::Duration;

fn number<T: std::str::FromStr>(name: &str, text: Option<String>) -> Result<T, String> {
    let text = text.ok_or(format!("{name} needs a number"))?;
    text.parse().map_err(|_| format!("{name} needs a number, not {text}"))
}

fn kinds(text: Option<String>) -> Result<Vec<u8>, String> {
    let text = text.ok_or("--kinds needs a list")?;
    let kind = |text: &str| match text.parse() {
        Ok(kind) if KINDS.iter().any(|&(known, _)| known == kind) => Ok(kind),
        _ => Err(format!("{text} is no kind")),
    };
    text.split(',').map(kind).collect()
}

/// `STDIN_FILE STDOUT_FILE [--kinds 1,2,3] [--inputs N] [--seed S]`
#[derive(Clone, Debug, PartialEq, Eq)]
pub struct CasesOptions {
    pub paths: [String; 2],
    pub kinds: Vec<u8>,
    pub inputs: usize,
    pub seed: u64,
}

impl CasesOptions {
    pub fn parse(arguments: impl Iterator<Item = String>) -> Result<CasesOptions, String> {
        let mut arguments = arguments.skip(1);
        let (mut paths, mut inputs, mut seed) = (Vec::new(), 1000, 1);
        let mut all_kinds = KINDS.iter().map(|&(kind, _)| kind).collect();
        while let Some(argument) = arguments.next() {
            match argument.as_str() {
                "--kinds" => all_kinds = kinds(arguments.next())?,
                "--inputs" => inputs = number("--inputs", arguments.next())?,
                "--seed" => seed = number("--seed", arguments.next())?,
                _ => paths.push(argument),
            }
        }
        let counted = |paths: Vec<String>| format!("2 paths needed, {} given", paths.len());
        let paths = paths.try_into().map_err(counted)?;
        Ok(CasesOptions { paths, kinds: all_kinds, inputs, seed })
    }
}

/// How far a comparison goes.
#[derive(Clone, Copy, Debug, PartialEq, Eq)]
pub enum Extent {
    Inputs(usize),
    Time(Duration),
}

/// At least one: a comparison of nothing would find no difference.
fn inputs(name: &str, text: Option<String>) -> Result<Extent, String> {
    match number(name, text)? {
        0 => Err(format!("{name} needs a number above 0")),
        inputs => Ok(Extent::Inputs(inputs)),
    }
}

fn minutes(name: &str, text: Option<String>) -> Result<Extent, String> {
    let minutes: f64 = number(name, text)?;
    let time = Duration::try_from_secs_f64(60.0 * minutes);
    time.map(Extent::Time).map_err(|fault| format!("{name}: {fault}"))
}

/// Those named, in the sequence in which all are compared.
fn only(name: &str, text: Option<String>) -> Result<Vec<Subject>, String> {
    let text = text.ok_or(format!("{name} needs names"))?;
    let subject = |text| Subject::named(text).ok_or(format!("{name} knows no \"{text}\""));
    let named: Vec<Subject> = text.split(',').map(subject).collect::<Result<_, _>>()?;
    Ok(Subject::all().filter(|subject| named.contains(subject)).collect())
}

/// `(--inputs N | --minutes M) [--only NAME,NAME...] [--seed S] -- RUN [ARGUMENT...]`
#[derive(Clone, Debug, PartialEq, Eq)]
pub struct CompareOptions {
    pub extent: Extent,
    pub subjects: Vec<Subject>,
    pub seed: u64,
    pub runner: Program,
}

impl CompareOptions {
    pub fn parse(arguments: impl Iterator<Item = String>) -> Result<CompareOptions, String> {
        let mut arguments = arguments.skip(1);
        let (mut extent, mut seed) = (None, 1);
        let mut subjects = Subject::all().collect();
        loop {
            let name = arguments.next().ok_or("-- and a program are needed")?;
            match name.as_str() {
                "--inputs" => extent = Some(inputs(&name, arguments.next())?),
                "--minutes" => extent = Some(minutes(&name, arguments.next())?),
                "--only" => subjects = only(&name, arguments.next())?,
                "--seed" => seed = number(&name, arguments.next())?,
                "--" => break,
                _ => return Err(format!("{name} is no option")),
            }
        }
        let extent = extent.ok_or("--inputs or --minutes is needed")?;
        let path = arguments.next().ok_or("a program is needed")?;
        let runner = Program { path, arguments: arguments.collect() };
        Ok(CompareOptions { extent, subjects, seed, runner })
    }
}

/// `[--tables N] [--seed S] [--carry-ins-fewer K]`
#[derive(Clone, Debug, PartialEq, Eq)]
pub struct SimulateOptions {
    pub tables: usize,
    pub seed: u64,
    pub carry_ins_fewer: usize,
}

impl SimulateOptions {
    pub fn parse(arguments: impl Iterator<Item = String>) -> Result<SimulateOptions, String> {
        let mut arguments = arguments.skip(1);
        let mut options = SimulateOptions { tables: 300, seed: 1, carry_ins_fewer: 0 };
        while let Some(argument) = arguments.next() {
            let name = argument.as_str();
            match name {
                "--tables" => options.tables = number(name, arguments.next())?,
                "--seed" => options.seed = number(name, arguments.next())?,
                "--carry-ins-fewer" => options.carry_ins_fewer = number(name, arguments.next())?,
                _ => return Err(format!("{name} is no option")),
            }
        }
        Ok(options)
    }
}
