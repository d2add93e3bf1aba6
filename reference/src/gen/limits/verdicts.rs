//! Limits of the form of a verdict, to be written or read.

use super::orders::wrong_orders;
use super::sets::bits;
use super::{first_rows, light, limit, Limit, FILL, ROW_COUNTS};
use crate::book::{book_length, Verdict};
use crate::exam::Case;
use crate::table::{Mask, MOST_ROWS};

/// The limit, the side, the verdict, and whether its form is legal for n.
type Form = (&'static str, &'static str, Verdict, bool);

fn with_entry(mut verdict: Verdict, at: usize, entry: u8) -> Verdict {
    verdict.order[at] = entry;
    verdict
}

fn with_group(verdict: Verdict, group: Mask) -> Verdict {
    Verdict { group, ..verdict }
}

fn numbers(n: usize) -> Vec<Form> {
    const NUMBER: &str = "verdict from 0 to 2";
    let of_number = |number| Verdict { number, ..Verdict::none() };
    let rows: Vec<usize> = (0..n).collect();
    vec![
        (NUMBER, "0", Verdict::none(), true),
        (NUMBER, "1", Verdict::order(&rows), true),
        (NUMBER, "2", with_group(of_number(2), first_rows(n)), n > 0),
        (NUMBER, "3", of_number(3), false),
        (NUMBER, "255", of_number(255), false),
    ]
}

fn nones() -> Vec<Form> {
    const NONE: &str = "verdict 0: no order, no group";
    let last = MOST_ROWS - 1;
    vec![
        (NONE, "an entry", with_entry(Verdict::none(), 0, 0), false),
        (NONE, "an entry", with_entry(Verdict::none(), last, 254), false),
        (NONE, "a bit", with_group(Verdict::none(), first_rows(1)), false),
        (NONE, "a bit", with_group(Verdict::none(), Mask::of(&[last].into())), false),
    ]
}

fn orders(n: usize) -> Vec<Form> {
    const ORDER: &str = "verdict 1: each row once, the rest 255, no group";
    let order =
        |entries: &[u8]| Verdict::order(&entries.iter().map(|&e| e.into()).collect::<Vec<_>>());
    let rows: Vec<u8> = (0..n as u8).collect();
    let falling: Vec<u8> = (0..n as u8).rev().collect();
    let wrong = |(at, entries): (&'static str, Vec<u8>)| (ORDER, at, order(&entries), false);
    let mut forms: Vec<Form> = wrong_orders(n).into_iter().map(wrong).collect();
    forms.push((ORDER, "n − 1 to 0", order(&falling), true));
    forms.push((ORDER, "n − 1 entries", order(&rows[..n - 1]), false));
    forms.push((ORDER, "a bit", with_group(order(&rows), first_rows(1)), false));
    if n < MOST_ROWS {
        for (place, entry) in [(n, n as u8), (n, 0), (MOST_ROWS - 1, 254)] {
            forms.push((ORDER, "an entry behind", with_entry(order(&rows), place, entry), false));
        }
    }
    forms
}

fn groups(n: usize) -> Vec<Form> {
    const GROUP: &str = "verdict 2: rows below n, one at least, no order";
    let group = |group| Verdict { number: 2, group, ..Verdict::none() };
    let of_bit = |(at, bit, is_row)| (GROUP, at, group(Mask::of(&[bit].into())), is_row);
    let mut forms: Vec<Form> = bits(n).into_iter().map(of_bit).collect();
    forms.push((GROUP, "no row", group(Mask::default()), false));
    forms.push((GROUP, "an entry", with_entry(group(first_rows(n)), 0, 0), false));
    forms.push((GROUP, "an entry", with_entry(group(first_rows(n)), MOST_ROWS - 1, 0), false));
    forms
}

pub fn forms(n: usize) -> Vec<Form> {
    [numbers(n), nones(), orders(n), groups(n)].concat()
}

/// Without rows the only order has none of them, and there is no group.
pub fn forms_without_rows() -> Vec<Form> {
    const NO_ROWS: &str = "verdict, n 0";
    let group = |group| Verdict { number: 2, group, ..Verdict::none() };
    vec![
        (NO_ROWS, "0", Verdict::none(), true),
        (NO_ROWS, "1", Verdict::order(&[]), true),
        (NO_ROWS, "1 with row 0", Verdict::order(&[0]), false),
        (NO_ROWS, "2 without a row", group(Mask::default()), false),
        (NO_ROWS, "2 with row 0", group(first_rows(1)), false),
    ]
}

fn writes(n: usize, forms: Vec<Form>) -> impl Iterator<Item = Limit<Case>> {
    forms.into_iter().map(move |(name, at, verdict, legal)| {
        let case = Case::WriteBook { lent: light(n), verdict, output: vec![FILL; book_length(n)] };
        limit(name, at, case, if legal { 0 } else { 13 })
    })
}

pub fn verdicts(kind: u8) -> Vec<Limit<Case>> {
    match kind {
        7 => ROW_COUNTS
            .into_iter()
            .flat_map(|n| writes(n, forms(n)))
            .chain(writes(0, forms_without_rows()))
            .collect(),
        _ => vec![],
    }
}
