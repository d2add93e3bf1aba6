//! Tables to simulate, most of them at the border of acceptance.

use crate::gen::rng::Rng;
use crate::gen::tables::{heaviest, table_with_rows};
use crate::gen::{checked, Size};
use crate::table::{Row, Table};

pub fn random_table(rng: &Rng, accepted: impl Fn(&Table) -> bool) -> Table {
    match rng.below(10) {
        0 => checked(&table_with_rows(rng, Size::Small)),
        1 => checked(&table_with_rows(rng, Size::Full)),
        2 => checked(&heaviest(rng, Size::Small, accepted)),
        3 => checked(&heaviest(rng, Size::Full, accepted)),
        _ => tight(rng, accepted),
    }
}

/// What makes a row heavier by one tick. T comes again, for D may have held it.
const CHANGES: [fn(&mut Row); 4] =
    [|row| row.c += 1, |row| row.t -= 1, |row| row.d -= 1, |row| row.t -= 1];

/// A small table made heavier as long as it is accepted.
fn tight(rng: &Rng, accepted: impl Fn(&Table) -> bool) -> Table {
    let changes = &CHANGES[..rng.pick(&[1, 2, 4, 4])];
    let heavier = |table, &change: &fn(&mut Row)| while_accepted(rng, table, change, &accepted);
    changes.iter().fold(light(rng), heavier)
}

/// Changes one row at a time until no row can be changed further.
fn while_accepted(
    rng: &Rng,
    mut table: Table,
    change: fn(&mut Row),
    accepted: impl Fn(&Table) -> bool,
) -> Table {
    let mut open: Vec<usize> = (0..table.n()).collect();
    while !open.is_empty() {
        let at = rng.index(open.len());
        match changed(&table, open[at], change).filter(&accepted) {
            Some(heavier) => table = heavier,
            None => {
                open.swap_remove(at);
            }
        }
    }
    table
}

/// The table with one row changed; none if that row is then out of range.
fn changed(table: &Table, row: usize, change: fn(&mut Row)) -> Option<Table> {
    let mut table = table.clone();
    change(&mut table.rows[row]);
    table.rows[row].in_range().then_some(table)
}

/// At least two rows more than cores: the first m levels wait for nothing, the
/// next one waits for them and so can carry a job in, to the loss of the last.
fn light(rng: &Rng) -> Table {
    let m = rng.pick(&[1, 2, 2, 2, 2, 2, 3, 4]);
    let longest = rng.range(4, 12);
    let rows = (0..m + rng.range(2, 4)).map(|_| light_row(rng, longest)).collect();
    Table { rows, m }
}

fn light_row(rng: &Rng, longest: u64) -> Row {
    let t = rng.range(2, longest);
    Row { c: 1, d: rng.range(t - t / 4, t), t }
}

#[cfg(test)]
mod tests {
    use super::*;
    use crate::search::audsley;

    fn accepted(table: &Table) -> bool {
        audsley(table).group.is_empty()
    }

    #[test]
    fn no_change_goes_further() {
        let rng = Rng::new(1);
        for change in CHANGES.repeat(10) {
            let table = while_accepted(&rng, light(&rng), change, accepted);
            let mut heavier = (0..table.n()).filter_map(|row| changed(&table, row, change));
            assert!(!heavier.any(|heavier| accepted(&heavier)), "{table:?}");
        }
    }

    #[test]
    fn most_tables_are_accepted_and_all_have_rows() {
        let rng = Rng::new(1);
        let tables: Vec<Table> = (0..100).map(|_| random_table(&rng, accepted)).collect();
        assert!(tables.iter().filter(|table| accepted(table)).count() > 50);
        assert!(tables.iter().all(|table| table.n() > 0));
    }
}
