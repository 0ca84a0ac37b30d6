//! What the audits came to, for the table.

use crate::audit_case::Audit;
use crate::audits::Seen;
use harness::lent::LentFragments;
use harness::model_audit::{ROW_NUMBERS, SEED};
use std::collections::BTreeMap;

#[derive(Default)]
pub struct Count {
    pub audits: u64,
    calls: BTreeMap<(&'static str, u64), u64>,
    /// Fragments of lists that are not refused whole, by refusal.
    listed: BTreeMap<u64, u64>,
    /// Reads of accepted single calls by the index, by role and state.
    reads: BTreeMap<(u64, u64), u64>,
    /// Accepted sheets by status, and targets' rows.
    sheets: BTreeMap<u64, u64>,
    rows: BTreeMap<u64, u64>,
    turned: u64,
    notes: BTreeMap<&'static str, u64>,
}

const STATUSES: [&str; 4] = ["complete", "candidate limit", "remap disabled", "closed walk"];
const STATES: [&str; 6] = ["not requested", "ineligible", "indeterminate", "unmapped", "single", "multiple"];

impl Count {
    pub fn call(&mut self, name: &'static str, refusal: u64) {
        *self.calls.entry((name, refusal)).or_default() += 1;
    }

    pub fn note(&mut self, what: &'static str, holds: bool) {
        *self.notes.entry(what).or_default() += u64::from(holds);
    }

    pub fn turned(&mut self, reads: u64) {
        self.turned += reads;
    }

    pub fn list(&mut self, refusal: u64, l: &LentFragments, rows: &[u64]) {
        if refusal != 0 {
            return;
        }
        self.note("lists without a fragment", l.ordinals.is_empty());
        let mut at = 0;
        for &n in l.counts.iter().filter(|&&n| n != 0) {
            *self.listed.entry(rows[ROW_NUMBERS * at]).or_default() += 1;
            at += n as usize;
        }
    }

    /// The main calls of a run by the index.
    pub fn run(&mut self, audit: &Audit, seen: &Seen) {
        self.audits += 1;
        for (call, x) in audit.calls.iter().zip(&seen.calls).filter(|(_, x)| x.refusal == 0) {
            let share = (x.entries.len() / 4 / call.fragment.reads.len()) as u64;
            for (i, read) in call.fragment.reads.iter().enumerate() {
                let (state, groups) = (x.answer[ROW_NUMBERS * i + 1], x.answer[ROW_NUMBERS * i + 2]);
                *self.reads.entry((read.role.into(), state)).or_default() += 1;
                self.note("reads with as many groups as the limit", groups == audit.settings.limit);
                self.note("reads with as many groups as entries, not 0", groups == share && groups > 0);
                self.note("reads of a seed's length or more, mapped", state > 2 && groups > 0 && read.bases.len() >= SEED);
            }
        }
        let accepted = seen.calls.iter().filter(|x| x.refusal == 0).count();
        self.note("with several fragments accepted", accepted > 1);
        self.note("with accepted and refused fragments", accepted > 0 && accepted < seen.calls.len());
        if seen.finish == 0 {
            *self.sheets.entry(seen.sheet[21]).or_default() += 1;
        }
        if seen.applied == 0 {
            seen.rows.chunks(4).for_each(|row| *self.rows.entry(row[0]).or_default() += 1);
        }
    }

    pub fn print(&self) {
        println!("{} whole audits; their calls by refusal:", self.audits);
        for ((name, refusal), n) in &self.calls {
            let answer = if *refusal == 0 { "accepted".into() } else { format!("refused {refusal}") };
            println!("  {name:<16} {answer:<11} {n:>9}");
        }
        println!("fragments within accepted lists by refusal:");
        for (refusal, n) in &self.listed {
            let answer = if *refusal == 0 { "accepted".into() } else { format!("refused {refusal}") };
            println!("  {answer:<28} {n:>9}");
        }
        println!("accepted reads by role and state:");
        for ((role, state), n) in &self.reads {
            println!("  {:<2} {} {:<23} {n:>9}", ["S", "R1", "R2"][*role as usize], state, STATES[*state as usize]);
        }
        println!("sheets by status:");
        for (status, n) in &self.sheets {
            println!("  {:<28} {n:>9}", STATUSES[*status as usize]);
        }
        println!("rows of targets by status:");
        for (status, n) in &self.rows {
            println!("  {:<28} {n:>9}", STATUSES[*status as usize]);
        }
        println!("of the audits and their reads:");
        for (what, n) in &self.notes {
            println!("  {what:<42} {n:>9}");
        }
        println!("  {:<42} {:>9}", "reads turned round for the plain audit", self.turned);
    }
}
