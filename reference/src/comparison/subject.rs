//! What is compared, by name.

use crate::exam::{kind_name, KINDS};

/// A kind of the exam, an entry that C and Rust link, or whole listings.
#[derive(Clone, Copy, Debug, PartialEq, Eq)]
pub enum Subject {
    Kind(u8),
    Host,
    Records,
    Listing,
}

impl Subject {
    pub fn all() -> impl Iterator<Item = Subject> {
        let kinds = KINDS.into_iter().map(|(kind, _)| Subject::Kind(kind));
        kinds.chain([Subject::Host, Subject::Records, Subject::Listing])
    }

    pub fn name(self) -> &'static str {
        match self {
            Subject::Kind(kind) => kind_name(kind),
            Subject::Host => "host",
            Subject::Records => "records",
            Subject::Listing => "listing",
        }
    }

    /// The program that its cases are put to.
    pub fn program(self) -> &'static str {
        match self {
            Subject::Kind(_) => "exam",
            Subject::Host => "examine",
            Subject::Records => "examine_records",
            Subject::Listing => "listing",
        }
    }

    /// By its name, in which `-` may stand for a space.
    pub fn named(text: &str) -> Option<Subject> {
        let name = text.replace('-', " ");
        Subject::all().find(|subject| subject.name() == name)
    }
}
