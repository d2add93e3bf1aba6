//! The legal schedule of given jobs, in whole ticks: the up to m highest levels
//! with a pending job execute, one job of a row at a time.

use crate::table::Table;

#[derive(Clone, Copy, Debug, PartialEq, Eq)]
pub struct Job {
    pub release: u64,
    pub ticks: u64,
}

/// The unfinished jobs of a row, in order of release.
struct Unfinished<'a> {
    jobs: &'a [Job],
    left_of_first: u64,
}

impl<'a> Unfinished<'a> {
    fn new(jobs: &'a [Job]) -> Unfinished<'a> {
        Unfinished { jobs, left_of_first: jobs.first().map_or(0, |job| job.ticks) }
    }

    fn release(&self) -> Option<u64> {
        self.jobs.first().map(|job| job.release)
    }

    fn is_pending(&self, now: u64) -> bool {
        self.release().is_some_and(|release| release <= now)
    }

    /// Executes the first job; whether that finishes it.
    fn execute(&mut self, ticks: u64) -> bool {
        self.left_of_first -= ticks;
        let finished = self.left_of_first == 0;
        if finished {
            *self = Unfinished::new(&self.jobs[1..]);
        }
        finished
    }
}

/// When each job of each row finishes. Between a release or a finish and the
/// next one the same rows execute, so time goes on from one to the other.
pub fn finishes(m: u64, order: &[usize], jobs: &[Vec<Job>]) -> Vec<Vec<u64>> {
    let mut rows: Vec<Unfinished> = jobs.iter().map(|jobs| Unfinished::new(jobs)).collect();
    let mut finishes = vec![Vec::new(); rows.len()];
    let mut executing = Vec::new();
    let mut now = 0;
    loop {
        let pending = order.iter().copied().filter(|&row| rows[row].is_pending(now));
        executing.clear();
        executing.extend(pending.take(m as usize));
        let releases = rows.iter().filter_map(Unfinished::release).filter(|&time| time > now);
        let ends = executing.iter().map(|&row| now + rows[row].left_of_first);
        let Some(next) = releases.chain(ends).min() else {
            return finishes;
        };
        for &row in &executing {
            if rows[row].execute(next - now) {
                finishes[row].push(next);
            }
        }
        now = next;
    }
}

#[derive(Clone, Copy, Debug, PartialEq, Eq)]
pub struct LateJob {
    pub row: usize,
    pub release: u64,
}

pub fn late_jobs(table: &Table, order: &[usize], jobs: &[Vec<Job>]) -> Vec<LateJob> {
    let mut late = Vec::new();
    for (row, finishes) in finishes(table.m, order, jobs).into_iter().enumerate() {
        let releases = jobs[row].iter().map(|job| job.release);
        let missed =
            releases.zip(finishes).filter(|(release, end)| *end > release + table.rows[row].d);
        late.extend(missed.map(|(release, _)| LateJob { row, release }));
    }
    late
}

#[cfg(test)]
mod tests {
    use super::super::releases::random_jobs;
    use super::*;
    use crate::gen::rng::Rng;
    use crate::table::Row;

    fn jobs(jobs: &[(u64, u64)]) -> Vec<Job> {
        jobs.iter().map(|&(release, ticks)| Job { release, ticks }).collect()
    }

    fn table(m: u64, rows: &[(u64, u64, u64)]) -> Table {
        Table { rows: rows.iter().map(|&(c, d, t)| Row { c, d, t }).collect(), m }
    }

    #[test]
    fn a_schedule_on_two_cores() {
        // 0 to 1: rows 1 and 2. 1 to 3: rows 0 and 1. 3 to 5: row 2, whose next
        // job waits for it from 4 on. 5 to 6: rows 0 and 2. 6 to 7: row 0.
        let jobs = [jobs(&[(1, 2), (5, 2)]), jobs(&[(0, 3)]), jobs(&[(0, 3), (4, 1)])];
        let expected = [vec![3, 7], vec![3], vec![5, 6]];
        assert_eq!(finishes(2, &[0, 1, 2], &jobs), expected);
        let table = table(2, &[(2, 2, 4), (3, 3, 9), (3, 4, 4)]);
        assert_eq!(late_jobs(&table, &[0, 1, 2], &jobs), [LateJob { row: 2, release: 0 }]);
    }

    #[test]
    fn levels_are_those_of_the_order() {
        let jobs = [jobs(&[(0, 2)]), jobs(&[(0, 3)]), jobs(&[(0, 1)])];
        assert_eq!(finishes(1, &[2, 0, 1], &jobs), [[3], [6], [1]]);
        assert_eq!(finishes(3, &[2, 0, 1], &jobs), [[2], [3], [1]]);
    }

    const FOUR_ROWS: [(u64, u64, u64); 4] = [(1, 1, 9), (1, 1, 9), (1, 2, 9), (1, 2, 9)];

    #[test]
    fn half_a_tick_makes_a_job_late() {
        let halves = FOUR_ROWS.map(|(c, d, t)| (2 * c, 2 * d, 2 * t));
        let jobs = [0, 1, 0, 0].map(|release| jobs(&[(release, 2)]));
        let order = [0, 1, 2, 3];
        assert_eq!(finishes(2, &order, &jobs), [[2], [3], [3], [5]]);
        let late = late_jobs(&table(2, &halves), &order, &jobs);
        assert_eq!(late, [LateJob { row: 3, release: 0 }]);
    }

    #[test]
    fn no_offsets_in_whole_ticks_make_a_job_late() {
        let table = table(2, &FOUR_ROWS);
        for code in 0..9u64.pow(4) {
            let offsets = [1, 9, 81, 729].map(|place| code / place % 9);
            let jobs = offsets.map(|offset| jobs(&[(offset, 1), (offset + 9, 1)]));
            assert_eq!(late_jobs(&table, &[0, 1, 2, 3], &jobs), [], "{offsets:?}");
        }
    }

    /// The schedule as it is said, one tick after the other.
    fn finishes_by_ticks(m: u64, order: &[usize], jobs: &[Vec<Job>]) -> Vec<Vec<u64>> {
        let mut finishes = vec![Vec::new(); jobs.len()];
        let mut done = vec![0; jobs.len()];
        let mut now = 0;
        while finishes.iter().zip(jobs).any(|(finishes, jobs)| finishes.len() < jobs.len()) {
            let first = |row: usize| jobs[row].get(finishes[row].len());
            let pending = |&row: &usize| first(row).is_some_and(|job| job.release <= now);
            let levels = order.iter().copied().filter(pending).take(m as usize);
            for row in levels.collect::<Vec<_>>() {
                done[row] += 1;
                if done[row] == jobs[row][finishes[row].len()].ticks {
                    finishes[row].push(now + 1);
                    done[row] = 0;
                }
            }
            now += 1;
        }
        finishes
    }

    #[test]
    fn going_on_by_ticks_gives_the_same() {
        let rng = Rng::new(1);
        for m in [1, 2, 3, 2, 3, 4] {
            // Heavier than any test accepts, so that jobs are late and wait for one another.
            let rows = [(1, 2, 4), (3, 4, 5), (2, 6, 6), (5, 7, 7), (4, 9, 9), (3, 5, 11)];
            let order = rng.permutation(rows.len());
            let jobs = random_jobs(&rng, &table(m, &rows));
            assert_eq!(finishes(m, &order, &jobs), finishes_by_ticks(m, &order, &jobs));
        }
    }
}
