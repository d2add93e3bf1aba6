//! The checker of orders and of blocked groups.

use crate::table::{
    all_below, is_permutation, number, require, without, Lent, Mask, Refusal, Table,
};
use crate::test::{passes, used};
use std::collections::BTreeSet;

#[derive(Clone, Debug, Default, PartialEq, Eq)]
pub struct OrderAnswer {
    pub number: u64,
    pub row: u64,
    pub level: u64,
    pub used: u64,
}

fn admitted_order(lent: &Lent, order: &[u8]) -> Result<Table, Refusal> {
    let table = lent.checked()?;
    require(is_permutation(order, table.n()), number::MALFORMED)?;
    Ok(table)
}

/// `used` of the row at a level, with the levels above it.
pub fn used_at(table: &Table, order: &[usize], level: usize) -> u64 {
    let above: BTreeSet<usize> = order[..level - 1].iter().copied().collect();
    used(table, order[level - 1], &above)
}

pub fn check_order(lent: &Lent, order: &[u8]) -> OrderAnswer {
    let table = match admitted_order(lent, order) {
        Ok(table) => table,
        Err(Refusal { number, row }) => return OrderAnswer { number, row, ..Default::default() },
    };
    let order: Vec<usize> = order.iter().map(|&row| row.into()).collect();
    let fails = |&level: &usize| used_at(&table, &order, level) > table.rows[order[level - 1]].d;
    match (1..=table.n()).rev().find(fails) {
        None => OrderAnswer::default(),
        Some(level) => OrderAnswer {
            number: number::ORDER_FAILS,
            row: 0,
            level: level as u64,
            used: used_at(&table, &order, level),
        },
    }
}

#[derive(Clone, Debug, PartialEq, Eq)]
pub struct GroupAnswer {
    pub number: u64,
    pub row: u64,
}

fn admitted_group(lent: &Lent, group: &BTreeSet<usize>) -> Result<Table, Refusal> {
    let table = lent.checked()?;
    require(!group.is_empty() && all_below(group, table.n()), number::MALFORMED)?;
    Ok(table)
}

pub fn check_group(lent: &Lent, group: Mask) -> GroupAnswer {
    let group = group.rows();
    let table = match admitted_group(lent, &group) {
        Ok(table) => table,
        Err(Refusal { number, row }) => return GroupAnswer { number, row },
    };
    match group.iter().find(|&&k| passes(&table, k, &without(&group, k))) {
        None => GroupAnswer { number: number::DONE, row: 0 },
        Some(&row) => GroupAnswer { number: number::MEMBER_PASSES, row: row as u64 },
    }
}

#[cfg(test)]
mod tests {
    use super::*;
    use crate::known;

    #[test]
    fn the_largest_failing_level_is_named() {
        let answer = check_order(&known::k(4), &[2, 1, 0]);
        assert_eq!(answer, OrderAnswer { number: 6, row: 0, level: 3, used: 6 });
        // With one core both lower levels fail.
        let lent = Lent { words: [5, 5, 5].repeat(3), m: 1 };
        assert_eq!(check_order(&lent, &[0, 1, 2]).level, 3);
    }

    #[test]
    fn orders_of_another_length_are_5() {
        assert_eq!(check_order(&known::k(1), &[]).number, 0);
        assert_eq!(check_order(&known::k(1), &[255]).number, 5);
        assert_eq!(check_order(&known::k(3), &[0]).number, 5);
        assert_eq!(check_order(&known::k(3), &[0, 0]).number, 5);
        assert_eq!(check_order(&known::k(3), &[0, 2]).number, 5);
        assert_eq!(check_order(&known::k(3), &[0, 1, 255]).number, 5);
    }

    #[test]
    fn a_group_is_tested_within_itself() {
        let check = |low, high| {
            let answer = check_group(&known::k(4), Mask { low, high });
            (answer.number, answer.row)
        };
        assert_eq!(check(7, 0), (0, 0));
        assert_eq!(check(6, 0), (14, 1));
        assert_eq!(check(0, 0), (5, 0));
        assert_eq!(check(15, 0), (5, 0));
        assert_eq!(check(7, 1 << 40), (5, 0));
    }
}
