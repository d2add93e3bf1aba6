//! Well-formed tables: edges, tiny ones, realistic ones, and the border
//! between placed and blocked.

use super::rng::Rng;
use super::{checked, Size};
use crate::search::audsley;
use crate::table::{Lent, Table, MOST_CORES, MOST_TICKS};

const MILLION: u64 = 1_000_000;

pub fn table(rng: &Rng, size: Size) -> Lent {
    match rng.below(10) {
        0 | 1 => small_values(rng),
        2 => edges(rng, size),
        3 => equal_rows(rng, size),
        4 => rising_deadlines(rng, size),
        5 | 6 => border(rng, size),
        _ => realistic(rng, size),
    }
}

/// A table of at least one row.
pub fn table_with_rows(rng: &Rng, size: Size) -> Lent {
    loop {
        let lent = table(rng, size);
        if lent.n() > 0 {
            return lent;
        }
    }
}

fn row_count(rng: &Rng, size: Size) -> usize {
    let (low, high) = match (size, rng.below(4)) {
        (Size::Small, _) => (1, 8),
        (Size::Full, 0 | 1) => (2, 12),
        (Size::Full, 2) => (13, 40),
        (Size::Full, _) => (41, 96),
    };
    rng.size(low, high)
}

/// Mostly fewer cores than rows: with more, every row passes.
fn cores(rng: &Rng, n: usize) -> u32 {
    let most = MOST_CORES.min(n.max(2) as u32 - 1);
    match rng.below(8) {
        0 => rng.ticks(1, MOST_CORES),
        1..=4 => rng.ticks(1, most.min(4)),
        _ => rng.ticks(1, most),
    }
}

/// Three values in rising sequence are a row.
fn sorted_row(mut row: [u32; 3]) -> [u32; 3] {
    row.sort();
    row
}

fn small_values(rng: &Rng) -> Lent {
    let n = rng.size(0, 6);
    let most = rng.ticks(2, 8);
    let rows: Vec<[u32; 3]> =
        (0..n).map(|_| sorted_row([0; 3].map(|_| rng.ticks(1, most)))).collect();
    Lent { words: rows.concat(), m: rng.ticks(1, 4) }
}

fn edges(rng: &Rng, size: Size) -> Lent {
    let n = match size {
        Size::Small => rng.pick(&[0, 1, 2, 3]),
        Size::Full => rng.pick(&[0, 1, 2, 41, 42, 43, 63, 64, 65, 84, 85, 95, 96]),
    };
    let values = [1, 1, 2, MOST_TICKS / 2, MOST_TICKS - 1, MOST_TICKS, MOST_TICKS];
    let rows: Vec<[u32; 3]> =
        (0..n).map(|_| sorted_row([0; 3].map(|_| rng.pick(&values)))).collect();
    Lent { words: rows.concat(), m: rng.pick(&[1, 2, 31, 32]) }
}

fn equal_rows(rng: &Rng, size: Size) -> Lent {
    let n = row_count(rng, size);
    let most = rng.pick(&[5, 100, MOST_TICKS]);
    let mut row = sorted_row([0; 3].map(|_| rng.ticks(1, most)));
    if rng.one_in(2) {
        row[1] = row[rng.pick(&[0, 2])];
    }
    Lent { words: row.repeat(n), m: cores(rng, n) }
}

/// With one core and this sequence the search makes its most tests.
pub fn rising_rows(n: usize, slack: u32) -> Vec<[u32; 3]> {
    (1..=n as u32).map(|d| [1, d + slack, 1000]).collect()
}

fn rising_deadlines(rng: &Rng, size: Size) -> Lent {
    let n = row_count(rng, size);
    let slack = rng.ticks(0, 1);
    let mut rows = rising_rows(n, slack);
    if rng.one_in(2) {
        let (i, j) = (rng.index(n), rng.index(n));
        rows.swap(i, j);
    }
    Lent { words: rows.concat(), m: rng.pick(&[1, 1, 2]) }
}

/// Log-uniform by octaves: whole numbers give the same cases on every machine.
fn log_uniform(rng: &Rng, low: u32, high: u32) -> u32 {
    let octave = rng.ticks(0, (high / low).ilog2());
    let base = low << octave;
    rng.ticks(base, (2 * base - 1).min(high))
}

fn shares(rng: &Rng, n: usize, total: u64) -> Vec<u64> {
    let mut cuts: Vec<u64> = (1..n).map(|_| rng.range(0, total)).collect();
    cuts.extend([0, total]);
    cuts.sort();
    cuts.windows(2).map(|pair| pair[1] - pair[0]).collect()
}

/// Utilisations in millionths: sorted cuts share out the total as UUniFast
/// does, evenly over all shares; those with a row above 1 are discarded.
fn utilisations(rng: &Rng, n: usize, total: u64) -> Vec<u64> {
    let mut total = total.min(n as u64 * MILLION * 6 / 10);
    loop {
        for _ in 0..50 {
            let shares = shares(rng, n, total);
            if shares.iter().all(|&share| share <= MILLION) {
                return shares;
            }
        }
        total = total * 9 / 10;
    }
}

fn realistic_of(rng: &Rng, n: usize, m: u32) -> Lent {
    let total = u64::from(m) * rng.range(200_000, MILLION);
    let (low, high) =
        rng.pick(&[(10, 1_000), (1_000, 1_000_000), (10_000, MOST_TICKS), (10, MOST_TICKS)]);
    let deadlines = rng.below(3);
    let mut words = Vec::new();
    for share in utilisations(rng, n, total) {
        let t = log_uniform(rng, low, high);
        let c = ((u64::from(t) * share / MILLION) as u32).max(1);
        let d = match deadlines {
            0 => t,
            1 => rng.ticks(c, t),
            _ => rng.ticks(c + (t - c) / 2, t),
        };
        words.extend([c, d, t]);
    }
    Lent { words, m }
}

fn realistic(rng: &Rng, size: Size) -> Lent {
    let n = row_count(rng, size);
    realistic_of(rng, n, cores(rng, n))
}

fn scaled(lent: &Lent, thousandths: u64) -> Lent {
    let mut scaled = lent.clone();
    for row in scaled.words.chunks_mut(3) {
        let c = u64::from(row[0]) * thousandths / 1000;
        row[0] = c.clamp(1, row[1].into()) as u32;
    }
    scaled
}

fn placed(table: &Table) -> bool {
    audsley(table).group.is_empty()
}

/// The last scale of C, in thousandths, at which a table is accepted, as halving finds it.
fn last_scale(lent: &Lent, accepted: impl Fn(&Table) -> bool) -> u64 {
    let (mut below, mut above) = (1, 5000);
    while above - below > 1 {
        let middle = (below + above) / 2;
        if accepted(&checked(&scaled(lent, middle))) {
            below = middle;
        } else {
            above = middle;
        }
    }
    below
}

fn realistic_for_border(rng: &Rng, size: Size) -> Lent {
    let n = row_count(rng, size).min(24);
    realistic_of(rng, n, cores(rng, n))
}

/// A table whose search ends just on one side of the border.
fn border(rng: &Rng, size: Size) -> Lent {
    let lent = realistic_for_border(rng, size);
    let last = last_scale(&lent, placed);
    scaled(&lent, rng.pick(&[last, last + 1]))
}

/// A realistic table of n rows for m cores, as heavy as is placed, and the same a little heavier.
pub fn border_tables(seed: u64, n: usize, m: u32) -> (Lent, Lent) {
    let lent = realistic_of(&Rng::new(seed), n, m);
    let last = last_scale(&lent, placed);
    (scaled(&lent, last), scaled(&lent, last + 1))
}

/// A realistic table, as heavy as is accepted.
pub fn heaviest(rng: &Rng, size: Size, accepted: impl Fn(&Table) -> bool) -> Lent {
    let lent = realistic_for_border(rng, size);
    scaled(&lent, last_scale(&lent, accepted))
}

/// k of DkC, near enough to find rows whose keys are almost equal.
fn dkc_factor(m: u32) -> f64 {
    let m = f64::from(m);
    (m - 1.0 + (5.0 * m * m - 6.0 * m + 1.0).sqrt()) / (2.0 * m)
}

/// The best fractions of D over C for a factor, C below the limit.
fn convergents(factor: f64, limit: u64) -> Vec<(u64, u64)> {
    let (mut last, mut this) = ((1, 0), (factor.floor() as u64, 1));
    let mut found = vec![this];
    let mut rest = factor.fract();
    while rest > 1e-9 {
        let digit = rest.recip().floor() as u64;
        rest = rest.recip().fract();
        (last, this) = (this, (digit * this.0 + last.0, digit * this.1 + last.1));
        if this.1 > limit {
            break;
        }
        found.push(this);
    }
    found
}

/// Rows whose DkC keys are equal or almost so.
pub fn near_ties(rng: &Rng, size: Size) -> Lent {
    let n = row_count(rng, size);
    let m = rng.ticks(1, MOST_CORES);
    let factor = dkc_factor(m);
    let fractions = convergents(factor, 1_500_000);
    let c_base = rng.ticks(1, 1_000_000);
    let d_base = rng.ticks(3_000_000, 4_000_000);
    let rounded = rng.one_in(2);
    let mut words = Vec::new();
    for _ in 0..n {
        let (d_more, c_more) = if rounded {
            let c = rng.range(0, 1_500_000);
            ((factor * c as f64).round() as u64, c)
        } else {
            rng.pick(&fractions)
        };
        words.extend([c_base + c_more as u32, d_base + d_more as u32, MOST_TICKS]);
    }
    Lent { words, m }
}

#[cfg(test)]
mod tests {
    use super::*;

    #[test]
    fn generated_tables_are_in_range() {
        let rng = Rng::new(1);
        for _ in 0..300 {
            for size in [Size::Small, Size::Full] {
                assert!(table(&rng, size).checked().is_ok());
                assert!(near_ties(&rng, size).checked().is_ok());
            }
        }
    }
}
