//! The text of the listing program.

use crate::audit::used_at;
use crate::book::parse;
use crate::search::{audsley, Found};
use crate::table::{number, without, Table};
use crate::test::used;

fn load(table: &Table) -> u64 {
    table.rows.iter().map(|row| 1000 * row.c / row.t).sum()
}

fn header(table: &Table, found: &Found) -> String {
    let word = if found.number() == number::DONE { "ORDER" } else { "BLOCKED" };
    let (m, n, tests, load) = (table.m, table.n(), found.tests, load(table));
    format!("{word} m={m} n={n} tests={tests} load={load}\n")
}

fn row_line(table: &Table, row: usize, used: u64) -> String {
    let values = &table.rows[row];
    format!("row={row} C={} D={} T={} used={used}\n", values.c, values.d, values.t)
}

fn level_lines(table: &Table, order: &[usize]) -> String {
    let line = |level: usize| {
        let used = used_at(table, order, level);
        format!("{level} {}", row_line(table, order[level - 1], used))
    };
    (1..=order.len()).map(line).collect()
}

fn member_lines(table: &Table, found: &Found) -> String {
    let used_of = |row| used(table, row, &without(&found.group, row));
    found.group.iter().map(|&row| row_line(table, row, used_of(row))).collect()
}

fn searched(input: &[u8]) -> Result<String, u64> {
    let book = parse(input).map_err(|refusal| refusal.number)?;
    let table = book.lent.checked().map_err(|refusal| refusal.number)?;
    let found = audsley(&table);
    let lines = match found.number() {
        number::DONE => level_lines(&table, &found.order),
        _ => member_lines(&table, &found),
    };
    Ok(header(&table, &found) + &lines)
}

/// What the listing program prints for its standard input.
pub fn listing(input: &[u8]) -> String {
    searched(input).unwrap_or_else(|number| format!("REFUSED {number}\n"))
}

#[cfg(test)]
mod tests {
    use super::*;
    use crate::book::{book_of, Verdict};
    use crate::known;

    fn listed(case: usize) -> String {
        listing(&book_of(&known::k(case), &Verdict::none()))
    }

    #[test]
    fn the_book_of_k5() {
        let text = "ORDER m=2 n=3 tests=5 load=1458\n\
                    1 row=1 C=106 D=210 T=214 used=106\n\
                    2 row=0 C=23 D=33 T=33 used=28\n\
                    3 row=2 C=58 D=216 T=217 used=215\n";
        assert_eq!(listed(5), text);
    }

    #[test]
    fn a_blocked_book() {
        let text = "BLOCKED m=2 n=3 tests=3 load=3000\n\
                    row=0 C=5 D=5 T=5 used=6\n\
                    row=1 C=5 D=5 T=5 used=6\n\
                    row=2 C=5 D=5 T=5 used=6\n";
        assert_eq!(listed(4), text);
    }

    #[test]
    fn a_book_without_rows_and_unreadable_ones() {
        assert_eq!(listed(1), "ORDER m=1 n=0 tests=0 load=0\n");
        assert_eq!(listing(&[]), "REFUSED 9\n");
        assert_eq!(listing(&[0; 2049]), "REFUSED 9\n");
        assert_eq!(listing(&[0; 512]), "REFUSED 11\n");
    }
}
