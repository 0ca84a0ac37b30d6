//! What is seen of an audit, held against the Rust's accumulator and against the plain audit.

use crate::audit_case::{Audit, Call};
use crate::audits::{Answered, Seen};
use crate::buffer::unless;
use crate::count::Count;
use harness::audits::{self, Case, Finished, Run, Shown, Stage};
use harness::model_audit::{Targets, ROW_NUMBERS};
use harness::theirs::Answer;

// ---- the Rust

/// What the Rust can refuse of a fragment.
const THEIRS: std::ops::RangeInclusive<u64> = 12..=16;

/// The Rust is given the fragments that are accepted or that it can refuse, up to a change of state or counters. Its run
/// ends at the first that it refuses. A second one, without refused fragments, then goes to its end: by the rules they
/// leave everything as it was.
pub fn the_rust(audit: &Audit, seen: &Seen, count: &mut Count) -> Result<(), String> {
    let changed = audit.calls.iter().position(|call| !call.changes.is_empty());
    let until = changed.unwrap_or(audit.calls.len());
    let unchanged = changed.is_none() && audit.changes.is_empty();
    let given = |wanted: &dyn Fn(u64) -> bool| -> Vec<usize> { (0..until).filter(|&i| wanted(seen.calls[i].refusal)).collect() };

    let first = given(&|n| n == 0 || THEIRS.contains(&n));
    let Some(run) = run(audit, &first) else { return Ok(()) };
    if !opened(audit, seen.opening, &run)? {
        return Ok(());
    }
    count.note("with the Rust up to its first error", true);
    let stopped = answered(seen, &first, &run)?;
    if !stopped {
        return unless_finished(seen, unchanged, &run, count);
    }
    let second = given(&|n| n == 0);
    let run = self::run(audit, &second).expect("the Rust had it before");
    unless(!answered(seen, &second, &run)?, "the Rust refuses a fragment without the refused ones")?;
    unless_finished(seen, unchanged, &run, count)
}

fn run(audit: &Audit, given: &[usize]) -> Option<Run> {
    let fragments = given.iter().map(|&i| audit.calls[i].fragment.clone()).collect();
    audits::run(&Case { c: audit.c.clone(), settings: audit.settings, fragments })
}

/// Whether both open; 2 is not the Rust's, and with remap off its 4 may stand for 3.
fn opened(audit: &Audit, opening: u64, run: &Run) -> Result<bool, String> {
    let theirs = match &run.end {
        Err(stop) if stop.stage == Stage::Opening => stop.refusal,
        _ => 0,
    };
    let same = match (opening, theirs) {
        (2, _) => true,
        (3, 4) => audit.settings.remap == 0,
        (a, b) => a == b,
    };
    unless(same, &format!("the Rust's opening is refused {theirs}, ours {opening}"))?;
    Ok(opening == 0)
}

/// Every answer up to the first error, and whether there was one.
fn answered(seen: &Seen, given: &[usize], run: &Run) -> Result<bool, String> {
    for (i, (&at, theirs)) in given.iter().zip(&run.answers).enumerate() {
        let ours = &seen.calls[at];
        unless(ours.refusal == 0, &format!("the Rust accepts fragment {i}, which is refused {}", ours.refusal))?;
        if reads_of(ours, theirs.len()) != *theirs {
            return Err(format!("the Rust answers fragment {i} by {theirs:?}"));
        }
    }
    match &run.end {
        Err(stop) => {
            let Stage::Fragment(i) = stop.stage else { return Err(format!("the Rust does not finish: {}", stop.text)) };
            let ours = seen.calls[given[i]].refusal;
            unless(ours == stop.refusal, &format!("the Rust refuses fragment {i} by {}, ours by {ours}: {}", stop.refusal, stop.text))?;
            Ok(true)
        }
        Ok(_) => {
            unless(run.answers.len() == given.len(), "the Rust answers fewer fragments")?;
            Ok(false)
        }
    }
}

/// The answers of an accepted call, read from its rows and entries.
fn reads_of(call: &Answered, reads: usize) -> Vec<Answer> {
    let share = call.entries.len() / 4 / reads;
    let read = |i: usize| {
        let row = &call.answer[ROW_NUMBERS * i..];
        let groups = call.entries[4 * share * i..].as_chunks::<4>().0.iter().take(row[2] as usize);
        Answer { state: row[1], groups: groups.copied().collect(), work: row[3..8].try_into().unwrap() }
    };
    (0..reads).map(read).collect()
}

fn unless_finished(seen: &Seen, unchanged: bool, run: &Run, count: &mut Count) -> Result<(), String> {
    let Ok(theirs) = &run.end else { return Err("the Rust does not finish".into()) };
    if !unchanged {
        return Ok(());
    }
    count.note("with the Rust up to its sheet and targets", true);
    unless(seen.finish == 0 && seen.applied == 0, "the Rust finishes a run that is refused")?;
    let ours = finished(seen, theirs);
    if ours == *theirs {
        return Ok(());
    }
    Err(format!("the Rust shows {theirs:?}, ours {ours:?}"))
}

/// The sheet and the rows in the form of the Rust's, with the counts that it shows.
fn finished(seen: &Seen, theirs: &Finished) -> Finished {
    let shown = |row: &[u64]| Shown { status: row[0], totals: (row[0] == audits::COMPLETE).then(|| [row[1], row[2], row[3]]) };
    let count = |x: &[u64; 3]| [x[0], x[1], seen.sheet[(3 + 6 * x[0] + x[1]) as usize]];
    Finished {
        counts: theirs.counts.iter().map(count).collect(),
        run: shown(&seen.sheet[21..]),
        targets: seen.rows.chunks(4).map(shown).collect(),
    }
}

// ---- the plain audit

/// The two audits agree as long as no call is refused by one of them alone.
pub fn the_plain(audit: &Audit, t: &Targets, seen: &Seen, plain: &Seen, count: &mut Count) -> Result<(), String> {
    if seen.opening != 0 || plain.opening != 0 {
        return refused_alike(seen.opening, plain.opening);
    }
    for (i, (call, (a, b))) in audit.calls.iter().zip(seen.calls.iter().zip(&plain.calls)).enumerate() {
        let alike = !call.turns.contains(&true) && call.plain_entries / 4 == call.fragment.entries / 4;
        if alike {
            refused_alike(a.refusal, b.refusal)?;
        }
        match (a.refusal, b.refusal) {
            (0, 0) => reads_agree(call, t, a, b).map_err(|text| format!("fragment {i}: {text}"))?,
            (0, _) | (_, 0) => {
                count.note("plain: a call refused by one alone", true);
                return Ok(());
            }
            _ => {}
        }
        let turned = call.turns.iter().zip(&call.fragment.reads).filter(|(turns, _)| **turns).count();
        count.turned(if a.refusal == 0 { turned as u64 } else { 0 });
    }
    count.note("plain: whole runs that agree", true);
    unless(seen.state == plain.state && seen.counters == plain.counters, "the plain audit holds other numbers")?;
    unless(seen.sheet == plain.sheet, "the plain audit has another sheet")
}

fn refused_alike(a: u64, b: u64) -> Result<(), String> {
    unless(a == b, &format!("refused {a}, the plain audit {b}"))
}

/// The same states and groups, strands swapped where a read was turned, and no more comparisons by the index.
fn reads_agree(call: &Call, t: &Targets, a: &Answered, b: &Answered) -> Result<(), String> {
    let n = call.fragment.reads.len();
    for (i, (by_index, plain)) in reads_of(a, n).into_iter().zip(reads_of(b, n)).enumerate() {
        let mut groups = by_index.groups;
        if call.turns[i] {
            let rank = |place: u64| t.linear.iter().position(|x| x.0 == place);
            groups.iter_mut().for_each(|g| g[3] = 1 - g[3]);
            groups.sort_by_key(|g| (rank(g[0]), g[1], g[3]));
        }
        unless(by_index.state == plain.state, "the plain audit gives another state")?;
        unless(groups == plain.groups, "the plain audit lists other groups")?;
        unless(call.turns[i] || by_index.work[3] <= plain.work[3], "the index makes more comparisons than the plain audit")?;
    }
    Ok(())
}
