//! Random jobs that a table allows: T or more apart, of C ticks or fewer.

use super::schedule::Job;
use crate::gen::rng::Rng;
use crate::table::{Row, Table};

const LONGEST_PERIODS: u64 = 30;
const MOST_JOBS: u64 = 2000;

/// Jobs of every row.
pub fn random_jobs(rng: &Rng, table: &Table) -> Vec<Vec<Job>> {
    let releases = random_releases(rng, table, end_of_releases(table));
    let shorter = rng.one_in(3);
    let rows = table.rows.iter().zip(releases);
    rows.map(|(row, releases)| jobs_of(rng, row, releases, shorter)).collect()
}

fn jobs_of(rng: &Rng, row: &Row, releases: Vec<u64>, shorter: bool) -> Vec<Job> {
    let ticks = || if shorter && rng.one_in(4) { rng.range(1, row.c) } else { row.c };
    releases.into_iter().map(|release| Job { release, ticks: ticks() }).collect()
}

/// Many periods of every row, unless short periods make too many jobs of that.
fn end_of_releases(table: &Table) -> u64 {
    let jobs_until = |end: u64| table.rows.iter().map(|row| end / row.t).sum::<u64>();
    let mut end = LONGEST_PERIODS * longest_period(table);
    while jobs_until(end) > MOST_JOBS {
        end /= 2;
    }
    end
}

fn longest_period(table: &Table) -> u64 {
    table.rows.iter().map(|row| row.t).max().expect("a table to simulate has rows")
}

fn random_releases(rng: &Rng, table: &Table, end: u64) -> Vec<Vec<u64>> {
    let offset = |row: &Row| rng.below(row.t.min(end));
    let rows = table.rows.iter();
    match rng.below(8) {
        0 => rows.map(|row| densely(row, 0, end).collect()).collect(),
        1 | 2 => rows.map(|row| densely(row, offset(row), end).collect()).collect(),
        3 | 4 => rows.map(|row| with_gaps(rng, row, offset(row), end)).collect(),
        _ => bursts(rng, table, end),
    }
}

fn densely(row: &Row, from: u64, until: u64) -> impl Iterator<Item = u64> {
    (from..until).step_by(row.t as usize)
}

fn with_gaps(rng: &Rng, row: &Row, from: u64, until: u64) -> Vec<u64> {
    let gap = || rng.pick(&[0, 0, 1, rng.range(1, row.t)]);
    let mut releases = Vec::new();
    let mut release = from;
    while release < until {
        releases.push(release);
        release += row.t + gap();
    }
    releases
}

/// Silence, then all rows densely from about one tick on, again and again.
/// A row that begins a little earlier can carry a job in over that tick.
fn bursts(rng: &Rng, table: &Table, end: u64) -> Vec<Vec<u64>> {
    let silence = longest_period(table);
    let mut releases = vec![Vec::new(); table.n()];
    let mut begin = rng.below(silence.min(end));
    while begin < end {
        let until = end.min(begin + rng.pick(&table.rows).d);
        for (row, releases) in table.rows.iter().zip(&mut releases) {
            let earlier = rng.pick(&[0, rng.range(0, row.d - row.c), rng.below(row.t)]);
            let legal = releases.last().map_or(0, |last| last + row.t);
            releases.extend(densely(row, legal.max(begin.saturating_sub(earlier)), until));
        }
        begin = until + rng.range(0, silence);
    }
    releases
}

#[cfg(test)]
mod tests {
    use super::super::tables::random_table;
    use super::*;

    fn legal(row: &Row, jobs: &[Job]) -> bool {
        jobs.windows(2).all(|pair| pair[0].release + row.t <= pair[1].release)
            && jobs.iter().all(|job| (1..=row.c).contains(&job.ticks))
    }

    #[test]
    fn jobs_are_legal() {
        let rng = Rng::new(1);
        for _ in 0..200 {
            let table = random_table(&rng, |_| true);
            let jobs = random_jobs(&rng, &table);
            let mut rows = table.rows.iter().zip(&jobs);
            assert!(rows.all(|(row, jobs)| legal(row, jobs)), "{table:?}");
        }
    }
}
