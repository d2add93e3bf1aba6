//! The cases of the program `examine`, which puts them to the host entry.

use crate::comparison::Asked;
use crate::exam::{runs, Answer, Reader};
use crate::host::host;

/// The longest list of a case.
pub const MOST_BYTES: usize = u16::MAX as usize;

#[derive(Clone, Debug, PartialEq, Eq)]
pub struct HostCase {
    pub book: Vec<u8>,
    pub output: Vec<u8>,
}

fn list(bytes: &[u8]) -> Vec<u8> {
    let length = u16::try_from(bytes.len()).expect("a list has at most 65,535 bytes");
    [&length.to_be_bytes(), bytes].concat()
}

impl HostCase {
    /// The next case; none at the end or on a case cut short.
    pub fn decode(input: &mut Reader) -> Option<HostCase> {
        Some(HostCase { book: input.byte_list()?, output: input.byte_list()? })
    }
}

/// The lengths and the book; an output's random bytes would tell a reader nothing.
fn case_text(HostCase { book, output }: &HostCase) -> String {
    format!("host book={} length={} output length={}", runs(book), book.len(), output.len())
}

fn number_text(expected: u64, answered: u64) -> Option<String> {
    (expected != answered).then(|| format!("\n  number: expected {expected}, answered {answered}"))
}

fn output_text(expected: &[u8], answered: &[u8]) -> Option<String> {
    let mut pairs = expected.iter().zip(answered).enumerate().filter(|(_, (e, a))| e != a);
    let (at, (expected, answered)) = pairs.next()?;
    let others = pairs.count();
    let first = format!("byte {at}: expected {expected:02x}, answered {answered:02x}");
    Some(format!("\n  output: {first}; {others} later bytes differ"))
}

fn answer_text(expected: &[u8], answered: &[u8]) -> String {
    if answered.len() < expected.len() {
        return format!("\n  cut short: {} of {} bytes answered", answered.len(), expected.len());
    }
    let parts = [expected, answered].map(|answer| {
        let (number, output) = answer.split_first_chunk().expect("an answer has its number");
        (u64::from_be_bytes(*number), output)
    });
    let number = number_text(parts[0].0, parts[1].0);
    let output = output_text(parts[0].1, parts[1].1);
    [number, output].into_iter().flatten().collect()
}

impl Asked for HostCase {
    fn encode(&self) -> Vec<u8> {
        [list(&self.book), list(&self.output)].concat()
    }

    fn answer(&self) -> Answer {
        host(&self.book, &self.output).into()
    }

    fn difference(&self, expected: &Answer, answered: &[u8]) -> String {
        case_text(self) + &answer_text(&expected.to_bytes(), answered)
    }
}

#[cfg(test)]
mod tests {
    use super::*;
    use crate::book::{book_of, Verdict};
    use crate::known;

    fn case() -> HostCase {
        HostCase { book: book_of(&known::k(1), &Verdict::none()), output: vec![7; 600] }
    }

    #[test]
    fn a_case_decodes_to_itself() {
        let bytes = case().encode();
        assert_eq!(bytes[..2], [2, 0]);
        assert_eq!(bytes[514..516], [2, 88]);
        assert_eq!(HostCase::decode(&mut Reader::new(&bytes)), Some(case()));
        assert_eq!(HostCase::decode(&mut Reader::new(&bytes[..bytes.len() - 1])), None);
    }

    #[test]
    fn an_answer_is_its_number_and_the_whole_output() {
        let bytes = case().answer().to_bytes();
        assert_eq!(bytes.len(), 8 + 600);
        assert_eq!(bytes[..8], [0; 8]);
        assert_eq!(bytes[8 + 512..], [7; 88]);
    }

    #[test]
    fn a_difference_names_the_number_and_the_first_byte() {
        let expected = case().answer();
        let mut answered = expected.to_bytes();
        answered[7] = 4;
        answered[8 + 5] = 2;
        answered[8 + 599] = 8;
        let text = case().difference(&expected, &answered);
        assert!(text.contains("length=512 output length=600\n"));
        assert!(text.contains("\n  number: expected 0, answered 4\n"));
        assert!(text.ends_with("byte 5: expected 01, answered 02; 1 later bytes differ"));
        let text = case().difference(&expected, &answered[..5]);
        assert!(text.ends_with("\n  cut short: 5 of 608 bytes answered"));
    }
}
