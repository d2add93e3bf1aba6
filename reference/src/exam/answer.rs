//! An answer as its named parts, their bytes and their text.

use super::runs;
use super::wire::Writer;
use crate::audit::{GroupAnswer, OrderAnswer};
use crate::book::{ReadAnswer, WriteAnswer};
use crate::host::HostAnswer;
use crate::policy::PolicyAnswer;
use crate::search::{SearchAnswer, StepAnswer};
use crate::test::TestAnswer;

#[derive(Clone, Debug, PartialEq, Eq)]
enum Part {
    Number(u64),
    Bytes(Vec<u8>),
    Words(Vec<u32>),
}

impl Part {
    fn length(&self) -> usize {
        match self {
            Part::Number(_) => 8,
            Part::Bytes(bytes) => bytes.len(),
            Part::Words(words) => 4 * words.len(),
        }
    }

    /// The text of bytes that stand where this part is expected.
    fn text(&self, bytes: &[u8]) -> String {
        match self {
            Part::Number(_) => {
                bytes.iter().fold(0, |value, &byte| value << 8 | u64::from(byte)).to_string()
            }
            _ => runs(bytes),
        }
    }
}

#[derive(Clone, Debug, PartialEq, Eq)]
pub struct Answer {
    number: u64,
    parts: Vec<(&'static str, Part)>,
}

impl Answer {
    fn new(number: u64) -> Answer {
        Answer { number, parts: Vec::new() }.with("number", number)
    }

    fn with(self, name: &'static str, value: u64) -> Answer {
        self.with_part(name, Part::Number(value))
    }

    fn with_bytes(self, name: &'static str, bytes: &[u8]) -> Answer {
        self.with_part(name, Part::Bytes(bytes.to_vec()))
    }

    fn with_part(mut self, name: &'static str, part: Part) -> Answer {
        self.parts.push((name, part));
        self
    }

    pub fn number(&self) -> u64 {
        self.number
    }

    pub fn to_bytes(&self) -> Vec<u8> {
        let mut out = Writer::default();
        for (_, part) in &self.parts {
            match part {
                Part::Number(value) => out.u64(*value),
                Part::Bytes(bytes) => out.raw(bytes),
                Part::Words(words) => words.iter().for_each(|&word| out.u32(word)),
            }
        }
        out.bytes
    }

    /// Bytes answered in place of this answer, as text, part by part.
    pub fn text_of(&self, mut bytes: &[u8]) -> String {
        let mut parts = Vec::new();
        for (name, part) in &self.parts {
            let Some((front, rest)) = bytes.split_at_checked(part.length()) else {
                parts.push(format!("{name} cut short: {}", runs(bytes)));
                break;
            };
            parts.push(format!("{name}={}", part.text(front)));
            bytes = rest;
        }
        parts.join(" ")
    }
}

impl From<TestAnswer> for Answer {
    fn from(answer: TestAnswer) -> Answer {
        Answer::new(answer.number)
            .with("row", answer.row)
            .with("passes", answer.passes.into())
            .with("used", answer.used)
    }
}

impl From<SearchAnswer> for Answer {
    fn from(answer: SearchAnswer) -> Answer {
        Answer::new(answer.number)
            .with("row", answer.row)
            .with("group low", answer.group.low)
            .with("group high", answer.group.high)
            .with("tests", answer.tests)
            .with_bytes("output", &answer.output)
    }
}

impl From<StepAnswer> for Answer {
    fn from(answer: StepAnswer) -> Answer {
        Answer::new(answer.number)
            .with("row", answer.row)
            .with("group low", answer.group.low)
            .with("group high", answer.group.high)
            .with("tests", answer.tests)
            .with_bytes("order", &answer.state.order)
            .with("placed", answer.state.placed)
            .with("cursor", answer.state.cursor)
    }
}

impl From<PolicyAnswer> for Answer {
    fn from(answer: PolicyAnswer) -> Answer {
        Answer::new(answer.number).with("row", answer.row).with_bytes("output", &answer.output)
    }
}

impl From<OrderAnswer> for Answer {
    fn from(answer: OrderAnswer) -> Answer {
        Answer::new(answer.number)
            .with("row", answer.row)
            .with("level", answer.level)
            .with("used", answer.used)
    }
}

impl From<GroupAnswer> for Answer {
    fn from(answer: GroupAnswer) -> Answer {
        Answer::new(answer.number).with("row", answer.row)
    }
}

impl From<WriteAnswer> for Answer {
    fn from(answer: WriteAnswer) -> Answer {
        Answer::new(answer.number).with("row", answer.row).with_bytes("output", &answer.output)
    }
}

impl From<ReadAnswer> for Answer {
    fn from(answer: ReadAnswer) -> Answer {
        Answer::new(answer.number)
            .with("row", answer.row)
            .with("block", answer.block)
            .with("m", answer.m)
            .with("n", answer.n)
            .with("verdict", answer.verdict)
            .with("group low", answer.group.low)
            .with("group high", answer.group.high)
            .with_bytes("order", &answer.order)
            .with_part("output words", Part::Words(answer.output))
    }
}

impl From<HostAnswer> for Answer {
    fn from(answer: HostAnswer) -> Answer {
        Answer::new(answer.number).with_bytes("output", &answer.output)
    }
}
