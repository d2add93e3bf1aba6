//! The example books: K5, a blocked table, and a made-up gateway; and books of the most rows.

use crate::book::{book_of, Verdict};
use crate::known;
use crate::table::{Lent, MOST_ROWS, MOST_TICKS};

pub const GATEWAY_CORES: u32 = 4;

/// A task of the gateway, its times in microseconds.
pub struct Task {
    pub name: &'static str,
    pub row: [u32; 3],
    pub note: &'static str,
}

const fn task(name: &'static str, row: [u32; 3]) -> Task {
    Task { name, row, note: "" }
}

const fn assumed(name: &'static str, row: [u32; 3]) -> Task {
    Task { name, row, note: "assumed: C could not be measured" }
}

/// Its tasks by subject, as a planner lists them; the search finds their levels.
pub const GATEWAY: [Task; 31] = [
    task("position reports", [3120, 8000, 20000]),
    task("door status", [905, 5000, 20000]),
    task("charge status", [1690, 6500, 50000]),
    task("battery temperature", [1240, 6500, 50000]),
    task("passenger counts", [5180, 31000, 100000]),
    task("fault codes", [7420, 80000, 250000]),
    assumed("emergency calls", [1800, 5000, 50000]),
    task("driver messages", [9460, 23000, 150000]),
    task("route requests", [24500, 55000, 100000]),
    task("map matching", [8230, 19000, 50000]),
    task("dispatch orders", [4310, 7500, 40000]),
    task("order receipts", [2580, 7000, 40000]),
    task("timetable deviation", [15800, 55000, 100000]),
    task("arrival forecasts", [42900, 115000, 200000]),
    task("transfer protection", [19500, 90000, 200000]),
    task("stop displays", [17200, 95000, 250000]),
    task("announcements", [8350, 25000, 120000]),
    task("signal priority requests", [2280, 6000, 25000]),
    task("depot gates", [3070, 9500, 100000]),
    task("charge plan", [86000, 300000, 1000000]),
    task("energy metering", [11400, 95000, 500000]),
    task("ticket data", [27300, 130000, 500000]),
    task("radio frames in", [880, 2500, 5000]),
    task("radio frames out", [760, 2500, 5000]),
    task("heartbeat", [375, 2500, 10000]),
    task("clock correction", [240, 2000, 10000]),
    task("watchdog", [180, 2000, 10000]),
    task("message journal", [7380, 15000, 50000]),
    task("key renewal", [64000, 300000, 5000000]),
    task("log upload", [190000, 660000, 4000000]),
    task("software download", [262000, 1000000, 10000000]),
];

pub fn gateway() -> Lent {
    Lent { words: GATEWAY.iter().flat_map(|task| task.row).collect(), m: GATEWAY_CORES }
}

/// The files' names and bytes; no verdict is stored in them, so that there is one to find.
pub fn books() -> [(&'static str, Vec<u8>); 3] {
    [("k5.book", known::k(5)), ("blocked.book", known::k(6)), ("gateway.book", gateway())]
        .map(|(name, lent)| (name, book_of(&lent, &Verdict::none())))
}

/// Row i has room for i rows above it and no more, so that only the lowest row left passes at each
/// level: all but the most tests that a search can make.
fn placed_late(m: u32) -> Lent {
    let row = |i: u32| [m, m + i, 100_000];
    Lent { words: (0..MOST_ROWS as u32).flat_map(row).collect(), m }
}

/// One row too many for the cores, tested in vain at every level until only they are left.
fn blocked_late(m: u32) -> Lent {
    let mut words = [5, 5, 1000].repeat(m as usize + 1);
    words.extend([1, MOST_TICKS, MOST_TICKS].repeat(MOST_ROWS - m as usize - 1));
    Lent { words, m }
}

/// The last row of the longest book is out of range.
fn refused_late() -> Lent {
    let mut lent = placed_late(4);
    lent.words[3 * MOST_ROWS - 3] = 0;
    lent
}

/// Books of 96 rows, to measure with.
pub fn large_books() -> [(&'static str, Vec<u8>); 5] {
    [
        ("placed_4.book", placed_late(4)),
        ("placed_32.book", placed_late(32)),
        ("blocked_4.book", blocked_late(4)),
        ("blocked_32.book", blocked_late(32)),
        ("refused.book", refused_late()),
    ]
    .map(|(name, lent)| (name, book_of(&lent, &Verdict::none())))
}
