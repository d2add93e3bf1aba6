//! The cases of the program `exam`: their bytes and the answers expected.

mod answer;
mod wire;

pub use answer::Answer;
pub use wire::{Reader, MOST_LIST_BYTES, MOST_LIST_WORDS};

use crate::audit::{check_group, check_order};
use crate::book::{read, write, Verdict};
use crate::comparison::Asked;
use crate::policy::propose;
use crate::search::{search, step, State};
use crate::table::{number, Lent, Mask};
use crate::test::single_test;
use std::fmt::{self, Display, Formatter};
use wire::Writer;

/// The kinds and their names.
pub const KINDS: [(u8, &str); 8] = [
    (1, "test"),
    (2, "search"),
    (3, "step"),
    (4, "policy"),
    (5, "check order"),
    (6, "check group"),
    (7, "write book"),
    (8, "read book"),
];

pub fn kind_name(kind: u8) -> &'static str {
    let found = KINDS.iter().find(|(number, _)| *number == kind);
    found.expect("the kind is one of the eight").1
}

#[derive(Clone, Debug, PartialEq, Eq)]
pub enum Case {
    Test { lent: Lent, k: u32, above: Mask },
    Search { lent: Lent, output: Vec<u8> },
    Step { lent: Lent, state: State, quota: u64 },
    Policy { lent: Lent, policy: u32, output: Vec<u8> },
    CheckOrder { lent: Lent, order: Vec<u8> },
    CheckGroup { lent: Lent, group: Mask },
    WriteBook { lent: Lent, verdict: Verdict, output: Vec<u8> },
    ReadBook { book: Vec<u8>, output: Vec<u32> },
}

impl Case {
    pub fn kind(&self) -> u8 {
        match self {
            Case::Test { .. } => 1,
            Case::Search { .. } => 2,
            Case::Step { .. } => 3,
            Case::Policy { .. } => 4,
            Case::CheckOrder { .. } => 5,
            Case::CheckGroup { .. } => 6,
            Case::WriteBook { .. } => 7,
            Case::ReadBook { .. } => 8,
        }
    }

    fn lent(&self) -> Option<&Lent> {
        match self {
            Case::Test { lent, .. }
            | Case::Search { lent, .. }
            | Case::Step { lent, .. }
            | Case::Policy { lent, .. }
            | Case::CheckOrder { lent, .. }
            | Case::CheckGroup { lent, .. }
            | Case::WriteBook { lent, .. } => Some(lent),
            Case::ReadBook { .. } => None,
        }
    }

    pub fn encode(&self) -> Vec<u8> {
        let mut out = Writer::default();
        out.u8(self.kind());
        if let Some(lent) = self.lent() {
            out.word_list(&lent.words);
            out.u32(lent.m);
        }
        self.encode_own(&mut out);
        out.bytes
    }

    fn encode_own(&self, out: &mut Writer) {
        match self {
            Case::Test { k, above, .. } => {
                out.u32(*k);
                out.mask(*above);
            }
            Case::Search { output, .. } => out.byte_list(output),
            Case::Step { state, quota, .. } => {
                out.raw(&state.order);
                out.u64(state.placed);
                out.u64(state.cursor);
                out.u64(*quota);
            }
            Case::Policy { policy, output, .. } => {
                out.u32(*policy);
                out.byte_list(output);
            }
            Case::CheckOrder { order, .. } => out.byte_list(order),
            Case::CheckGroup { group, .. } => out.mask(*group),
            Case::WriteBook { verdict, output, .. } => {
                out.u8(verdict.number);
                out.raw(&verdict.order);
                out.mask(verdict.group);
                out.byte_list(output);
            }
            Case::ReadBook { book, output } => {
                out.byte_list(book);
                out.word_list(output);
            }
        }
    }

    /// The next case; none at the end, on an unknown kind or a case cut short.
    pub fn decode(input: &mut Reader) -> Option<Case> {
        match input.u8()? {
            kind @ 1..=7 => {
                let lent = Lent { words: input.word_list()?, m: input.u32()? };
                Case::decode_own(kind, lent, input)
            }
            8 => Some(Case::ReadBook { book: input.byte_list()?, output: input.word_list()? }),
            _ => None,
        }
    }

    fn decode_own(kind: u8, lent: Lent, input: &mut Reader) -> Option<Case> {
        Some(match kind {
            1 => Case::Test { lent, k: input.u32()?, above: input.mask()? },
            2 => Case::Search { lent, output: input.byte_list()? },
            3 => {
                let (order, placed, cursor) = (input.entries()?, input.u64()?, input.u64()?);
                Case::Step { lent, state: State { order, placed, cursor }, quota: input.u64()? }
            }
            4 => Case::Policy { lent, policy: input.u32()?, output: input.byte_list()? },
            5 => Case::CheckOrder { lent, order: input.byte_list()? },
            6 => Case::CheckGroup { lent, group: input.mask()? },
            _ => {
                let (number, order, group) = (input.u8()?, input.entries()?, input.mask()?);
                let verdict = Verdict { number, order, group };
                Case::WriteBook { lent, verdict, output: input.byte_list()? }
            }
        })
    }

    /// The answer expected.
    pub fn answer(&self) -> Answer {
        match self {
            Case::Test { lent, k, above } => single_test(lent, *k, *above).into(),
            Case::Search { lent, output } => search(lent, output).into(),
            Case::Step { lent, state, quota } => step(lent, state, *quota).into(),
            Case::Policy { lent, policy, output } => propose(lent, *policy, output).into(),
            Case::CheckOrder { lent, order } => check_order(lent, order).into(),
            Case::CheckGroup { lent, group } => check_group(lent, *group).into(),
            Case::WriteBook { lent, verdict, output } => write(lent, verdict, output).into(),
            Case::ReadBook { book, output } => read(book, output).into(),
        }
    }
}

impl Asked for Case {
    fn encode(&self) -> Vec<u8> {
        Case::encode(self)
    }

    fn answer(&self) -> Answer {
        Case::answer(self)
    }

    fn difference(&self, expected: &Answer, answered: &[u8]) -> String {
        let [expected_text, answered_text] =
            [&expected.to_bytes(), answered].map(|bytes| expected.text_of(bytes));
        format!("{self}\n  expected {expected_text}\n  answered {answered_text}")
    }
}

/// Whether a number refuses a call before the work.
pub fn refuses_before_work(answered: u64) -> bool {
    let work = [
        number::DONE,
        number::BLOCKED,
        number::ORDER_FAILS,
        number::MEMBER_PASSES,
        number::QUOTA_SPENT,
    ];
    !work.contains(&answered)
}

/// Bytes in hexadecimal, a run of equal ones as byte and count.
pub fn runs(bytes: &[u8]) -> String {
    let run = |run: &[u8]| match run.len() {
        1 => format!("{:02x}", run[0]),
        count => format!("{:02x}*{count}", run[0]),
    };
    let runs: Vec<String> = bytes.chunk_by(|a, b| a == b).map(run).collect();
    format!("[{}]", runs.join(" "))
}

fn rows_text(words: &[u32]) -> String {
    let row = |row: &[u32]| format!("{row:?}").replace(' ', "");
    words.chunks(3).map(row).collect()
}

fn set_text(mask: Mask) -> String {
    format!("{:?}", mask.rows()).replace(' ', "")
}

impl Display for Case {
    fn fmt(&self, f: &mut Formatter) -> fmt::Result {
        write!(f, "{}", kind_name(self.kind()))?;
        if let Some(Lent { words, m }) = self.lent() {
            write!(f, " m={m} words={} rows={}", words.len(), rows_text(words))?;
        }
        match self {
            Case::Test { k, above, .. } => write!(f, " k={k} above={}", set_text(*above)),
            Case::Search { output, .. } => write!(f, " output={}", runs(output)),
            Case::Step { state: State { order, placed, cursor }, quota, .. } => {
                write!(f, " order={} placed={placed} cursor={cursor} quota={quota}", runs(order))
            }
            Case::Policy { policy, output, .. } => {
                write!(f, " policy={policy} output={}", runs(output))
            }
            Case::CheckOrder { order, .. } => write!(f, " order={order:?}"),
            Case::CheckGroup { group, .. } => write!(f, " group={}", set_text(*group)),
            Case::WriteBook { verdict: Verdict { number, order, group }, output, .. } => {
                write!(f, " verdict={number} order={}", runs(order))?;
                write!(f, " group={} output={}", set_text(*group), runs(output))
            }
            Case::ReadBook { book, output } => {
                write!(f, " length={} book={} output={output:?}", book.len(), runs(book))
            }
        }
    }
}
