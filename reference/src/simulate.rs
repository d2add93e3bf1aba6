//! Accepted tables run in random legal schedules, in which no job may be late.

mod releases;
mod schedule;
mod tables;

use crate::gen::rng::Rng;
use crate::options::SimulateOptions;
use crate::search::audsley_with;
use crate::table::Table;
use crate::test::carry_ins;
use schedule::LateJob;
use std::fmt;

/// Schedules of a table are drawn until this many jobs have run.
const JOBS_PER_TABLE: usize = 100_000;

/// What has been seen of all tables.
#[derive(Clone, Debug, Default, PartialEq, Eq)]
pub struct Tally {
    pub tables: usize,
    pub accepted: usize,
    pub schedules: usize,
    pub jobs: usize,
    pub late: usize,
    pub first_late: Option<Late>,
}

/// A late job, and where it was seen.
#[derive(Clone, Debug, PartialEq, Eq)]
pub struct Late {
    job: LateJob,
    table: Table,
    order: Vec<usize>,
}

impl fmt::Display for Tally {
    fn fmt(&self, f: &mut fmt::Formatter) -> fmt::Result {
        let Tally { tables, accepted, schedules, jobs, late, .. } = self;
        write!(f, "{tables} tables, {accepted} accepted: ")?;
        write!(f, "{schedules} schedules, {jobs} jobs, {late} late jobs")
    }
}

impl fmt::Display for Late {
    fn fmt(&self, f: &mut fmt::Formatter) -> fmt::Result {
        let LateJob { row, release } = self.job;
        let rows: Vec<_> = self.table.rows.iter().map(|row| (row.c, row.d, row.t)).collect();
        write!(f, "late: the job of row {row} released at {release}; ")?;
        write!(f, "rows {rows:?} on {} cores, order {:?}", self.table.m, self.order)
    }
}

/// The order found, if the table is accepted with so many carry-ins fewer.
fn order_found(table: &Table, carry_ins_fewer: usize) -> Option<Vec<usize>> {
    let found = audsley_with(table, carry_ins(table).saturating_sub(carry_ins_fewer));
    found.group.is_empty().then_some(found.order)
}

impl Tally {
    /// No job may be late, unless the test counts fewer carry-ins than it has to:
    /// then one must be seen.
    pub fn is_expected(&self, options: &SimulateOptions) -> bool {
        (self.late > 0) == (options.carry_ins_fewer > 0)
    }

    fn run_table(&mut self, rng: &Rng, table: &Table, order: &[usize]) {
        let end = self.jobs + JOBS_PER_TABLE;
        while self.jobs < end {
            self.run_schedule(rng, table, order);
        }
    }

    fn run_schedule(&mut self, rng: &Rng, table: &Table, order: &[usize]) {
        let jobs = releases::random_jobs(rng, table);
        let late = schedule::late_jobs(table, order, &jobs);
        self.schedules += 1;
        self.jobs += jobs.iter().map(Vec::len).sum::<usize>();
        self.late += late.len();
        if let (None, Some(&job)) = (&self.first_late, late.first()) {
            self.first_late = Some(Late { job, table: table.clone(), order: order.to_vec() });
        }
    }
}

pub fn simulate(options: &SimulateOptions) -> Tally {
    let rng = Rng::new(options.seed);
    let order_found = |table: &Table| order_found(table, options.carry_ins_fewer);
    let mut tally = Tally { tables: options.tables, ..Tally::default() };
    for _ in 0..options.tables {
        let table = tables::random_table(&rng, |table| order_found(table).is_some());
        if let Some(order) = order_found(&table) {
            tally.accepted += 1;
            tally.run_table(&rng, &table, &order);
        }
    }
    tally
}

#[cfg(test)]
mod tests {
    use super::*;
    use crate::gen::checked;
    use crate::known;
    use crate::table::Lent;

    fn tally_of(table: &Table, order: &[usize]) -> Tally {
        let mut tally = Tally::default();
        tally.run_table(&Rng::new(1), table, order);
        tally
    }

    #[test]
    fn no_job_of_k3_and_k5_is_late() {
        for (case, order) in [(3, vec![1, 0]), (5, vec![1, 0, 2])] {
            let table = checked(&known::k(case));
            assert_eq!(order_found(&table, 0), Some(order.clone()), "K{case}");
            let tally = tally_of(&table, &order);
            assert!(tally.schedules > 100 && tally.jobs >= JOBS_PER_TABLE, "K{case}: {tally}");
            assert_eq!(tally.late, 0, "K{case}");
        }
    }

    #[test]
    fn a_table_that_only_fewer_carry_ins_accept_has_late_jobs() {
        let table = checked(&Lent { words: vec![2, 2, 4, 2, 4, 4, 2, 2, 3, 1, 4, 4], m: 2 });
        assert_eq!(order_found(&table, 0), None);
        let order = order_found(&table, 1).expect("one carry-in fewer accepts the table");
        let tally = tally_of(&table, &order);
        let late = tally.first_late.expect("a job is late");
        assert!(tally.late > 0);
        let text =
            "rows [(2, 2, 4), (2, 4, 4), (2, 2, 3), (1, 4, 4)] on 2 cores, order [2, 0, 1, 3]";
        assert!(late.to_string().starts_with("late: the job of row 3 released at "), "{late}");
        assert!(late.to_string().ends_with(text), "{late}");
    }

    #[test]
    fn a_late_job_is_expected_exactly_with_fewer_carry_ins() {
        for (late, carry_ins_fewer, expected) in
            [(0, 0, true), (1, 0, false), (0, 1, false), (1, 1, true)]
        {
            let options = SimulateOptions { tables: 1, seed: 1, carry_ins_fewer };
            assert_eq!(Tally { late, ..Tally::default() }.is_expected(&options), expected);
        }
    }

    #[test]
    fn the_same_seed_gives_the_same_tally() {
        let tally = |seed| simulate(&SimulateOptions { tables: 4, seed, carry_ins_fewer: 0 });
        assert_eq!(tally(1), tally(1));
        assert_ne!(tally(1), tally(2));
    }
}
