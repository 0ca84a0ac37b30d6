//! What an audit shows: its kind, and what it is counted under.

use harness::audits::{Case, Fragment, Read, Run};
use harness::theirs::{self, Answer, Mapper, INDETERMINATE};
use harness::MOST_LIMIT;
use std::collections::BTreeMap;
use veritasm::indexed_mapper::DEFAULT_SEED_LENGTH;

/// Mode, remap, refusal or status, closed walks, number of fragments, the states of each role's reads, and, of one
/// fragment alone, what its reads look like.
pub type Kind = (u8, u8, String, bool, usize, [u8; 3], Vec<&'static str>);

fn end(run: &Run) -> String {
    match &run.end {
        Ok(shown) => format!("finished with status {}", shown.run.status),
        Err(stop) => format!("refused {:>2}", stop.refusal),
    }
}

/// Each read with an answer.
fn rows<'a>(case: &'a Case, run: &'a Run) -> impl Iterator<Item = (&'a Read, &'a Answer)> {
    case.fragments.iter().zip(&run.answers).flat_map(|(f, rows)| f.reads.iter().zip(rows))
}

pub fn kind(case: &Case, run: &Run) -> Kind {
    let (s, n) = (&case.settings, case.fragments.len());
    let (mut states, mut look) = ([0; 3], Vec::new());
    for (read, answer) in rows(case, run) {
        states[read.role as usize] |= 1 << answer.state;
        if n == 1 {
            look.extend(looks(read, answer, case));
        }
    }
    (s.mode, s.remap, end(run), case.c.marks.contains(&1), n, states, look)
}

/// Counts an audit under all that it shows.
pub fn note(seen: &mut BTreeMap<String, usize>, case: &Case, run: &Run) {
    let mut shown = vec![
        format!("ends {}", end(run)),
        format!("has mode {} and remap {}", case.settings.mode, case.settings.remap),
        format!("has {} fragments", case.fragments.len()),
    ];
    let names: Vec<_> = case.c.targets().into_iter().flatten().map(|t| t.0.to_vec()).collect();
    let mut hold = |holds: bool, what: &str| shown.extend(holds.then(|| what.into()));
    hold(case.c.marks.contains(&1), "targets: a closed walk");
    hold(!case.c.marks.contains(&0), "targets: none linear");
    hold(!names.is_sorted(), "targets: not in the order of their names");
    for (f, rows) in case.fragments.iter().zip(&run.answers) {
        let words: Vec<_> = rows.iter().map(|a| a.state.to_string()).collect();
        shown.push(format!("states of a fragment: {}", words.join(" ")));
        shown.extend(room(f, rows, case.settings.limit).into_iter().map(String::from));
        for (read, answer) in f.reads.iter().zip(rows) {
            shown.extend(looks(read, answer, case).into_iter().map(String::from));
        }
    }
    shown.sort();
    shown.dedup();
    for what in shown {
        *seen.entry(what).or_default() += 1;
    }
}

/// What the lent entries are to the groups.
fn room(f: &Fragment, rows: &[Answer], limit: u64) -> Vec<&'static str> {
    let mut all = Vec::new();
    let mut hold = |holds: bool, what| all.extend(holds.then_some(what));
    let (whole, n) = (f.entries / 4, rows.len());
    hold(rows.iter().any(|a| a.state >= INDETERMINATE && whole / n == a.groups.len()), "entries: no more than the groups");
    let over = rows.iter().any(|a| a.state == INDETERMINATE);
    hold(over && (whole / n) as u64 == limit, "entries: no more than the limit, and more matches");
    hold(whole % n != 0, "entries: one of neither read");
    hold(f.entries % 4 != 0, "entries: numbers behind the last");
    all
}

/// What a read with an answer shows.
fn looks(read: &Read, answer: &Answer, case: &Case) -> Vec<&'static str> {
    let mut all = Vec::new();
    let mut hold = |holds: bool, what| all.extend(holds.then_some(what));
    let (n, floor) = (read.bases.len(), case.settings.floor + 33);
    hold(read.bases.iter().any(|b| b"acgt".contains(b)), "read: lower case");
    hold(read.bases.iter().any(|b| !b"ACGTacgt".contains(b)), "read: a byte that is no base");
    hold(read.qualities.is_none(), "qualities: absent");
    hold(read.qualities.iter().flatten().any(|&b| b == floor), "qualities: one at the floor");
    hold(read.qualities.iter().flatten().any(|&b| b < floor), "qualities: one below the floor");
    if answer.state >= INDETERMINATE {
        let unitigs = theirs::unitigs(&case.c).expect("the Rust opened");
        let mapper = Mapper::new(&unitigs, DEFAULT_SEED_LENGTH).expect("the Rust opened");
        let matches = mapper.map(&read.bases.to_ascii_uppercase(), MOST_LIMIT).expect("the Rust mapped it").groups.len() as u64;
        hold(n < DEFAULT_SEED_LENGTH, "searched: shorter than a seed");
        hold(n == DEFAULT_SEED_LENGTH, "searched: of a seed's length");
        hold(n > DEFAULT_SEED_LENGTH, "searched: longer than a seed");
        hold(case.settings.limit + 1 == matches, "searched: limit one below the matches");
        hold(case.settings.limit == matches, "searched: limit equal to the matches");
        hold(case.settings.limit == matches + 1, "searched: limit one above the matches");
    }
    all
}
