//! Cases of the search whose words are whole rows, so that they can be lent as records.

use super::{Generator, Size};
use crate::exam::Case;

const SEARCH: u8 = 2;

/// Without a last piece of fewer than three words.
fn whole_rows(mut case: Case) -> Case {
    if let Case::Search { lent, .. } = &mut case {
        lent.words.truncate(3 * lent.n());
    }
    case
}

/// An endless sequence.
pub fn records_cases(seed: u64) -> impl Iterator<Item = Case> {
    Generator::new(SEARCH, Size::Full, seed).map(whole_rows)
}

#[cfg(test)]
mod tests {
    use super::*;
    use crate::exam::refuses_before_work;
    use crate::table::{Lent, MOST_ROWS};
    use std::collections::BTreeMap;

    const INPUTS: usize = 1500;

    fn lent(case: Case) -> Lent {
        match case {
            Case::Search { lent, .. } => lent,
            _ => panic!("kind {SEARCH} searches"),
        }
    }

    #[test]
    fn every_number_of_the_search_occurs_and_a_third_is_refused() {
        let mut numbers: BTreeMap<u64, usize> = BTreeMap::new();
        for case in records_cases(1).take(INPUTS) {
            *numbers.entry(case.answer().number()).or_default() += 1;
        }
        assert!(numbers.keys().eq(&[0, 1, 2, 3, 4, 8]), "{numbers:?}");
        assert!(numbers.values().all(|&count| count >= 5), "{numbers:?}");
        let refused = numbers.iter().filter(|(&number, _)| refuses_before_work(number));
        assert!(3 * refused.map(|(_, count)| count).sum::<usize>() >= INPUTS, "{numbers:?}");
    }

    #[test]
    fn words_are_whole_rows_as_many_as_a_table_holds_and_more() {
        let tables: Vec<Lent> = records_cases(1).take(INPUTS).map(lent).collect();
        assert!(tables.iter().all(|lent| lent.words.len().is_multiple_of(3)));
        for n in [0, 1, MOST_ROWS - 1, MOST_ROWS, MOST_ROWS + 1] {
            assert!(tables.iter().any(|lent| lent.n() == n), "{n}");
        }
        assert!(tables.iter().any(|lent| lent.n() > MOST_ROWS + 1));
    }
}
