//! Audits counted, and the smallest that differs.

use crate::audit_case::{Audit, Piece};
use crate::audits::compare;
use crate::buffer::shown;
use crate::count::Count;
use harness::audits::Read;
use harness::Catalogue;
use std::panic::{catch_unwind, AssertUnwindSafe};

#[derive(Default)]
pub struct AuditTally {
    pub compared: u64,
    pub different: u64,
    pub count: Count,
    smallest: Option<(usize, String)>,
}

/// The rules stop where the Rust's mapper finds other groups than they do: a difference like the others.
fn judged(audit: &Audit, count: &mut Count) -> Result<(), String> {
    catch_unwind(AssertUnwindSafe(|| compare(audit, count))).unwrap_or_else(|_| Err("the run panics".into()))
}

impl AuditTally {
    pub fn run(&mut self, audit: Audit) {
        self.compared += 1;
        if let Err(text) = judged(&audit, &mut self.count) {
            self.different += 1;
            self.note(audit, text);
        }
    }

    fn note(&mut self, mut audit: Audit, mut text: String) {
        let differs = |audit: &Audit| judged(audit, &mut Count::default()).err();
        if self.different <= 20 && size(&audit) < 10_000 {
            while let Some(next) = smaller(&audit).into_iter().filter(|a| size(a) < size(&audit)).find_map(|a| Some((differs(&a)?, a))) {
                (text, audit) = next;
            }
        }
        let n = size(&audit);
        if self.smallest.as_ref().is_none_or(|s| n < s.0) {
            self.smallest = Some((n, describe(&audit, &text)));
        }
    }

    pub fn print(&self) {
        self.count.print();
        if let Some((_, text)) = &self.smallest {
            println!("the smallest audit that differs: {text}");
        }
    }
}

fn flaws(audit: &Audit) -> usize {
    let own = [&audit.flawed_opening, &audit.flawed_finish, &audit.flawed_apply].map(Vec::len).iter().sum::<usize>();
    let calls = audit.calls.iter().map(|call| call.flawed.len() + call.changes.len()).sum::<usize>();
    own + calls + audit.pieces.iter().map(|piece| piece.flawed.len()).sum::<usize>() + audit.changes.len()
}

fn size(audit: &Audit) -> usize {
    let c = &audit.c;
    let read = |r: &Read| 1 + r.bases.len() + r.qualities.as_ref().map_or(0, |q| 1 + q.len());
    let reads = audit.calls.iter().flat_map(|call| &call.fragment.reads).map(read).sum::<usize>();
    let turns = audit.calls.iter().flat_map(|call| call.turns).filter(|&turns| turns).count();
    c.identifiers.len() + c.bases.len() + c.marks.len() + reads + turns + 4 * (audit.calls.len() + audit.pieces.len() + flaws(audit))
}

fn describe(audit: &Audit, text: &str) -> String {
    let c = &audit.c;
    let mut lines = format!(
        "{text}\n  identifiers {} ends {:?}\n  bases {} ends {:?}\n  marks {:?}\n  {:?}",
        shown(&c.identifiers),
        c.identifier_ends,
        shown(&c.bases),
        c.base_ends,
        c.marks,
        audit.settings
    );
    for call in &audit.calls {
        let f = &call.fragment;
        lines += &format!("\n  ordinal {}, {} numbers of entries, plain {}", f.ordinal, f.entries, call.plain_entries);
        for (i, read) in f.reads.iter().enumerate() {
            let qualities = read.qualities.as_ref().map_or("absent".into(), |q| shown(q));
            let turned = if call.turns.get(i) == Some(&true) { ", turned for the plain audit" } else { "" };
            lines += &format!("\n    role {}, {}, qualities {qualities}{turned}", read.role, shown(&read.bases));
        }
        lines += &format!("\n    changes {:?}, flaws {:?}", call.changes, call.flawed);
    }
    lines += &format!("\n  lists {:?}\n  changes before finish {:?}", audit.pieces, audit.changes);
    lines + &format!("\n  flaws at opening {:?}, finish {:?}, apply {:?}", audit.flawed_opening, audit.flawed_finish, audit.flawed_apply)
}

/// Smaller inputs of the same kind.
fn smaller(audit: &Audit) -> Vec<Audit> {
    let mut all = Vec::new();
    let mut add = |change: &dyn Fn(&mut Audit)| {
        let mut next = audit.clone();
        change(&mut next);
        all.push(next);
    };
    add(&|a| {
        a.flawed_opening.clear();
        a.flawed_finish.clear();
        a.flawed_apply.clear();
        a.changes.clear();
        a.calls.iter_mut().for_each(|call| (call.flawed, call.changes, call.turns) = Default::default());
        a.pieces = vec![Piece { until: a.calls.len(), entries: a.pieces.iter().map(|p| p.entries).sum(), flawed: Vec::new() }];
    });
    add(&|a| drop(a.flawed_opening.pop()));
    add(&|a| drop(a.flawed_finish.pop()));
    add(&|a| drop(a.flawed_apply.pop()));
    add(&|a| a.changes.clear());
    add(&|a| a.pieces.iter_mut().for_each(|piece| piece.flawed.clear()));
    for i in 0..audit.pieces.len().saturating_sub(1) {
        add(&|a| drop(a.pieces.remove(i)));
    }
    for i in 0..audit.calls.len() {
        add(&|a| {
            a.calls.remove(i);
            a.pieces.iter_mut().filter(|piece| piece.until > i).for_each(|piece| piece.until -= 1);
        });
        add(&|a| (a.calls[i].flawed, a.calls[i].changes) = Default::default());
        add(&|a| a.calls[i].turns = [false; 2]);
        for k in 0..audit.calls[i].fragment.reads.len() {
            for part in [(0, 1), (1, 2)] {
                add(&|a| cut(&mut a.calls[i].fragment.reads[k], part));
            }
            add(&|a| a.calls[i].fragment.reads[k].qualities = None);
            add(&|a| shorten(&mut a.calls[i].fragment.reads[k], true));
            add(&|a| shorten(&mut a.calls[i].fragment.reads[k], false));
        }
    }
    all.extend(fewer_targets(audit));
    all
}

/// Half of a read, with its qualities.
fn cut(read: &mut Read, (from, to): (usize, usize)) {
    let half = |bytes: &[u8]| bytes[from * bytes.len() / 2..to * bytes.len() / 2].to_vec();
    read.bases = half(&read.bases);
    read.qualities = read.qualities.as_deref().map(half);
}

/// A base less, with its quality.
fn shorten(read: &mut Read, front: bool) {
    let less = |bytes: &[u8]| bytes[if front { bytes.len().min(1)..bytes.len() } else { 0..bytes.len().saturating_sub(1) }].to_vec();
    read.bases = less(&read.bases);
    read.qualities = read.qualities.as_deref().map(less);
}

fn fewer_targets(audit: &Audit) -> Vec<Audit> {
    let Some(targets) = audit.c.targets() else { return Vec::new() };
    let with = |change: &dyn Fn(usize, &[u8]) -> Option<Vec<u8>>| {
        let mut c = Catalogue::default();
        for (i, t) in targets.iter().enumerate() {
            if let Some(bases) = change(i, t.1) {
                c.push(t.0, &bases, t.2);
            }
        }
        Audit { c, ..audit.clone() }
    };
    let mut all = Vec::new();
    for k in 0..targets.len() {
        all.push(with(&|i, b| (i != k).then(|| b.to_vec())));
        all.push(with(&|i, b| Some(if i == k { b[..b.len() / 2].to_vec() } else { b.to_vec() })));
        all.push(with(&|i, b| Some(if i == k { b[b.len() / 2..].to_vec() } else { b.to_vec() })));
        all.push(with(&|i, b| Some(if i == k { b[b.len().min(1)..].to_vec() } else { b.to_vec() })));
    }
    all
}
