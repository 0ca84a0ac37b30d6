//! The rules, said plainly: for what the Rust does not refuse, and to tell its errors apart.

use crate::{Catalogue, Columns, MOST_LIMIT};

fn proper(bases: &[u8]) -> bool {
    !bases.is_empty() && bases.iter().all(|b| b"ACGT".contains(b))
}

/// 1 to 4.
pub fn plan_refusal(c: &Catalogue, q: usize) -> u64 {
    if !(1..=31).contains(&q) {
        return 1;
    }
    if c.marks.len() > 4096 {
        return 2;
    }
    let Some(targets) = c.targets() else { return 2 };
    if targets.iter().any(|t| t.0.len() > 255 || t.2 > 1) || c.base_ends.last().is_some_and(|&e| e > 16_777_216) {
        return 2;
    }
    if targets.iter().any(|t| !proper(t.1)) {
        return 3;
    }
    let mut names: Vec<&[u8]> = targets.iter().map(|t| t.0).collect();
    names.sort();
    if names.windows(2).any(|w| w[0] == w[1]) {
        return 4;
    }
    0
}

/// The supplied places of the linear targets, by identifier.
pub fn ranked(c: &Catalogue) -> Vec<usize> {
    let targets = c.targets().expect("a right catalogue");
    let mut places: Vec<usize> = (0..targets.len()).filter(|&i| targets[i].2 == 0).collect();
    places.sort_by_key(|&i| targets[i].0);
    places
}

/// The index of a right catalogue.
pub fn index(c: &Catalogue, q: usize) -> Columns {
    let targets = c.targets().expect("a right catalogue");
    let code = |b: &u8| b"ACGT".iter().position(|x| x == b).unwrap() as u64;
    let mut rows = Vec::new();
    for (rank, place) in ranked(c).into_iter().enumerate() {
        for (position, seed) in targets[place].1.windows(q).enumerate() {
            let key = seed.iter().fold(0, |key, b| 4 * key + code(b));
            rows.push((key, rank as u32, position as u32));
        }
    }
    rows.sort_unstable();
    [rows.iter().map(|r| r.0).collect(), rows.iter().map(|r| r.1.into()).collect(), rows.iter().map(|r| r.2.into()).collect()]
}

/// 7 to 9.
pub fn read_refusal(read: &[u8], limit: u64) -> u64 {
    if read.len() > 65535 {
        return 7;
    }
    if !proper(read) {
        return 8;
    }
    if !(1..=MOST_LIMIT).contains(&limit) {
        return 9;
    }
    0
}

/// 10, of a read with so many matches.
pub fn room_refusal(entries: u64, limit: u64, matches: u64) -> u64 {
    if matches > entries && entries < limit {
        return 10;
    }
    0
}
