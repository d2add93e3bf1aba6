//! The tables of the K cases.

use crate::table::Lent;

fn lent(m: u32, rows: &[[u32; 3]]) -> Lent {
    Lent { words: rows.concat(), m }
}

/// The table of K1 to K11.
pub fn k(case: usize) -> Lent {
    match case {
        1 | 11 => lent(1, &[]),
        2 => lent(1, &[[5, 5, 5]]),
        3 => lent(2, &[[5, 5, 5]; 2]),
        4 => lent(2, &[[5, 5, 5]; 3]),
        5 => lent(2, &[[23, 33, 33], [106, 210, 214], [58, 216, 217]]),
        6 | 10 => lent(3, &[[23, 33, 33], [106, 210, 214], [58, 216, 217], [46, 60, 64]]),
        7 => lent(2, &[[1, 2, 3], [1, 2, 3], [2, 4, 4], [2, 4, 4]]),
        8 => lent(1, &[[1, 1, 10], [1, 2, 10], [1, 3, 10]]),
        9 => lent(1, &[[1, 3, 10], [1, 2, 10], [1, 1, 10]]),
        _ => panic!("there is no K{case}"),
    }
}

/// The tables of K1 to K9, which hold those of K10 and K11 too.
pub fn tables() -> Vec<Lent> {
    (1..=9).map(k).collect()
}
