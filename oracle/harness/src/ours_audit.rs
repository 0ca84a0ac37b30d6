//! The audit of the proved library, by the module that ships with it.

use crate::audits::Settings;
use crate::jekaumeo::{self, Counters, Fragment, Fragments, KeptCounters, Read};
use crate::lent::{LentFragment, LentFragments, LentRead};
use crate::ours::index;
use crate::{Catalogue, Columns};

fn counters([placements, singles, multi]: [&mut [u64]; 3]) -> Counters<'_> {
    Counters { placements, singles, multi }
}

fn kept([placements, singles, multi]: [&[u64]; 3]) -> KeptCounters<'_> {
    KeptCounters { placements, singles, multi }
}

fn read(r: &LentRead) -> Read<'_> {
    Read { bases: &r.bases, qualities: &r.qualities, role: r.role, mark: r.mark }
}

/// Without an index it is the plain audit, here and below.
pub fn open(state: &mut [u64], k: [&mut [u64]; 3], columns: Option<&Columns>, c: &Catalogue, s: &Settings) -> u64 {
    let s = jekaumeo::Settings { mode: s.mode, remap: s.remap, floor: s.floor, limit: s.limit };
    jekaumeo::open(state, counters(k), columns.map(index), c.lent(), s)
}

pub fn fragment(
    answer: &mut [u64], state: &mut [u64], entries: &mut [u64], k: [&mut [u64]; 3], columns: Option<&Columns>, c: &Catalogue, f: &LentFragment,
) -> u64 {
    let [a, b] = &f.reads;
    let f = Fragment { ordinal: f.ordinal, count: f.count, reads: [read(a), read(b)] };
    jekaumeo::fragment(answer, state, entries, counters(k), columns.map(index), c.lent(), f)
}

pub fn fragments(
    rows: &mut [u64], state: &mut [u64], entries: &mut [u64], k: [&mut [u64]; 3], columns: &Columns, c: &Catalogue, l: &LentFragments,
) -> u64 {
    let LentFragments { ordinals, counts, roles, reads, read_ends, quality_marks, qualities, quality_ends } = l;
    let l = Fragments { ordinals, counts, roles, reads, read_ends, quality_marks, qualities, quality_ends };
    jekaumeo::fragments(rows, state, entries, counters(k), index(columns), c.lent(), l)
}

pub fn finish(answer: &mut [u64], k: [&[u64]; 3], columns: Option<&Columns>, c: &Catalogue, state: &[u64]) -> u64 {
    jekaumeo::finish(answer, kept(k), columns.map(index), c.lent(), state)
}

/// `audited` are the targets that were lent to `finish`.
pub fn apply_to_unitigs(rows: &mut [u64], k: [&[u64]; 3], audited: &Catalogue, now: &Catalogue, sheet: &[u64]) -> u64 {
    jekaumeo::apply_to_unitigs(rows, kept(k), audited.lent(), now.lent(), sheet)
}
