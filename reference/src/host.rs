//! The entry for host build tools.

use crate::book::{book_of, parse, Verdict};
use crate::search::audsley;
use crate::table::{number, stored};

#[derive(Clone, Debug, PartialEq, Eq)]
pub struct HostAnswer {
    pub number: u64,
    pub output: Vec<u8>,
}

fn answered(book: &[u8], output: &[u8]) -> Result<HostAnswer, u64> {
    let lent = parse(book).map_err(|refusal| refusal.number)?.lent;
    let table = lent.checked().map_err(|refusal| refusal.number)?;
    if output.len() < book.len() {
        return Err(number::OUTPUT_SHORT);
    }
    let found = audsley(&table);
    let new_book = book_of(&lent, &Verdict::of_search(&found));
    Ok(HostAnswer { number: found.number(), output: stored(output, &new_book) })
}

/// Reads the book, searches, and writes the same table with the new verdict.
pub fn host(book: &[u8], output: &[u8]) -> HostAnswer {
    answered(book, output).unwrap_or_else(|number| HostAnswer { number, output: output.to_vec() })
}

#[cfg(test)]
mod tests {
    use super::*;
    use crate::known;
    use std::collections::BTreeSet;

    #[test]
    fn the_stored_verdict_is_replaced_and_later_bytes_stay() {
        let lent = known::k(5);
        let book = book_of(&lent, &Verdict::blocked(&BTreeSet::from([0])));
        let answer = host(&book, &[7; 1030]);
        assert_eq!(answer.number, 0);
        assert_eq!(answer.output[..1024], book_of(&lent, &Verdict::order(&[1, 0, 2])));
        assert_eq!(answer.output[1024..], [7; 6]);
    }

    #[test]
    fn a_blocked_table_is_written_too() {
        let lent = known::k(4);
        let answer = host(&book_of(&lent, &Verdict::none()), &[7; 1024]);
        let blocked = Verdict::blocked(&BTreeSet::from([0, 1, 2]));
        assert_eq!(answer, HostAnswer { number: 4, output: book_of(&lent, &blocked) });
    }

    #[test]
    fn no_rows_are_an_order_of_none() {
        let lent = known::k(1);
        let answer = host(&book_of(&lent, &Verdict::none()), &[7; 512]);
        assert_eq!(answer, HostAnswer { number: 0, output: book_of(&lent, &Verdict::order(&[])) });
    }

    #[test]
    fn the_room_is_judged_last() {
        let mut book = book_of(&known::k(5), &Verdict::none());
        assert_eq!(host(&book, &[7; 1023]), HostAnswer { number: 8, output: vec![7; 1023] });
        book[2] = 2;
        assert_eq!(host(&book, &[7; 3]), HostAnswer { number: 11, output: vec![7; 3] });
    }
}
