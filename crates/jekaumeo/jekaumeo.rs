//! The calls of libjekaumeo.a and libjekaumeo_audit.a for Rust: the structs of jekaumeo.h with safe functions over the flat calls.
//! Refusal numbers and answers: docs/REFERENCE.md, "Exports". The compiler checks these declarations against nothing; the comparison
//! in oracle/ runs through them.

type In8 = *const u8;
type In64 = *const u64;
type InSize = *const usize;
type Out = *mut u64;

extern "C" {
    fn jekaumeo_plan(
        answer: Out, answer_n: usize,
        identifiers: In8, identifiers_n: usize, identifier_ends: InSize, identifier_ends_n: usize,
        bases: In8, bases_n: usize, base_ends: InSize, base_ends_n: usize, marks: In8, marks_n: usize,
        q: usize,
    ) -> u64;
    fn jekaumeo_build(
        answer: Out, answer_n: usize,
        keys: Out, keys_n: usize, ranks: Out, ranks_n: usize, positions: Out, positions_n: usize,
        identifiers: In8, identifiers_n: usize, identifier_ends: InSize, identifier_ends_n: usize,
        bases: In8, bases_n: usize, base_ends: InSize, base_ends_n: usize, marks: In8, marks_n: usize,
        q: usize,
    ) -> u64;
    fn jekaumeo_check_index(
        keys: In64, keys_n: usize, ranks: In64, ranks_n: usize, positions: In64, positions_n: usize,
        identifiers: In8, identifiers_n: usize, identifier_ends: InSize, identifier_ends_n: usize,
        bases: In8, bases_n: usize, base_ends: InSize, base_ends_n: usize, marks: In8, marks_n: usize,
        q: usize,
    ) -> u64;
    fn jekaumeo_map(
        answer: Out, answer_n: usize, entries: Out, entries_n: usize,
        keys: In64, keys_n: usize, ranks: In64, ranks_n: usize, positions: In64, positions_n: usize,
        identifiers: In8, identifiers_n: usize, identifier_ends: InSize, identifier_ends_n: usize,
        bases: In8, bases_n: usize, base_ends: InSize, base_ends_n: usize, marks: In8, marks_n: usize,
        q: usize, read: In8, read_n: usize, limit: u64,
    ) -> u64;
    fn jekaumeo_map_reads(
        rows: Out, rows_n: usize, entries: Out, entries_n: usize,
        keys: In64, keys_n: usize, ranks: In64, ranks_n: usize, positions: In64, positions_n: usize,
        identifiers: In8, identifiers_n: usize, identifier_ends: InSize, identifier_ends_n: usize,
        bases: In8, bases_n: usize, base_ends: InSize, base_ends_n: usize, marks: In8, marks_n: usize,
        q: usize, reads: In8, reads_n: usize, read_ends: InSize, read_ends_n: usize, limit: u64,
    ) -> u64;
    fn jekaumeo_open(
        state: Out, state_n: usize, placements: Out, placements_n: usize, singles: Out, singles_n: usize, multi: Out, multi_n: usize,
        keys: In64, keys_n: usize, ranks: In64, ranks_n: usize, positions: In64, positions_n: usize,
        identifiers: In8, identifiers_n: usize, identifier_ends: InSize, identifier_ends_n: usize,
        bases: In8, bases_n: usize, base_ends: InSize, base_ends_n: usize, marks: In8, marks_n: usize,
        mode: u8, remap: u8, floor: u8, limit: u64,
    ) -> u64;
    fn jekaumeo_plain_open(
        state: Out, state_n: usize, placements: Out, placements_n: usize, singles: Out, singles_n: usize, multi: Out, multi_n: usize,
        identifiers: In8, identifiers_n: usize, identifier_ends: InSize, identifier_ends_n: usize,
        bases: In8, bases_n: usize, base_ends: InSize, base_ends_n: usize, marks: In8, marks_n: usize,
        mode: u8, remap: u8, floor: u8, limit: u64,
    ) -> u64;
    fn jekaumeo_fragment(
        answer: Out, answer_n: usize, state: Out, state_n: usize, entries: Out, entries_n: usize,
        placements: Out, placements_n: usize, singles: Out, singles_n: usize, multi: Out, multi_n: usize,
        keys: In64, keys_n: usize, ranks: In64, ranks_n: usize, positions: In64, positions_n: usize,
        identifiers: In8, identifiers_n: usize, identifier_ends: InSize, identifier_ends_n: usize,
        bases: In8, bases_n: usize, base_ends: InSize, base_ends_n: usize, marks: In8, marks_n: usize,
        first: In8, first_n: usize, first_qualities: In8, first_qualities_n: usize,
        second: In8, second_n: usize, second_qualities: In8, second_qualities_n: usize,
        first_role: u8, first_mark: u8, second_role: u8, second_mark: u8, ordinal: u64, count: usize,
    ) -> u64;
    fn jekaumeo_plain_fragment(
        answer: Out, answer_n: usize, state: Out, state_n: usize, entries: Out, entries_n: usize,
        placements: Out, placements_n: usize, singles: Out, singles_n: usize, multi: Out, multi_n: usize,
        identifiers: In8, identifiers_n: usize, identifier_ends: InSize, identifier_ends_n: usize,
        bases: In8, bases_n: usize, base_ends: InSize, base_ends_n: usize, marks: In8, marks_n: usize,
        first: In8, first_n: usize, first_qualities: In8, first_qualities_n: usize,
        second: In8, second_n: usize, second_qualities: In8, second_qualities_n: usize,
        first_role: u8, first_mark: u8, second_role: u8, second_mark: u8, ordinal: u64, count: usize,
    ) -> u64;
    fn jekaumeo_fragments(
        rows: Out, rows_n: usize, state: Out, state_n: usize, entries: Out, entries_n: usize,
        placements: Out, placements_n: usize, singles: Out, singles_n: usize, multi: Out, multi_n: usize,
        keys: In64, keys_n: usize, ranks: In64, ranks_n: usize, positions: In64, positions_n: usize,
        identifiers: In8, identifiers_n: usize, identifier_ends: InSize, identifier_ends_n: usize,
        bases: In8, bases_n: usize, base_ends: InSize, base_ends_n: usize, marks: In8, marks_n: usize,
        ordinals: In64, ordinals_n: usize, counts: In64, counts_n: usize, roles: In8, roles_n: usize,
        reads: In8, reads_n: usize, read_ends: InSize, read_ends_n: usize, quality_marks: In8, quality_marks_n: usize,
        qualities: In8, qualities_n: usize, quality_ends: InSize, quality_ends_n: usize,
    ) -> u64;
    fn jekaumeo_finish(
        answer: Out, answer_n: usize, placements: In64, placements_n: usize, singles: In64, singles_n: usize, multi: In64, multi_n: usize,
        keys: In64, keys_n: usize, ranks: In64, ranks_n: usize, positions: In64, positions_n: usize,
        identifiers: In8, identifiers_n: usize, identifier_ends: InSize, identifier_ends_n: usize,
        bases: In8, bases_n: usize, base_ends: InSize, base_ends_n: usize, marks: In8, marks_n: usize,
        state: In64, state_n: usize,
    ) -> u64;
    fn jekaumeo_plain_finish(
        answer: Out, answer_n: usize, placements: In64, placements_n: usize, singles: In64, singles_n: usize, multi: In64, multi_n: usize,
        identifiers: In8, identifiers_n: usize, identifier_ends: InSize, identifier_ends_n: usize,
        bases: In8, bases_n: usize, base_ends: InSize, base_ends_n: usize, marks: In8, marks_n: usize,
        state: In64, state_n: usize,
    ) -> u64;
    fn jekaumeo_apply_to_unitigs(
        rows: Out, rows_n: usize, placements: In64, placements_n: usize, singles: In64, singles_n: usize, multi: In64, multi_n: usize,
        identifiers: In8, identifiers_n: usize, identifier_ends: InSize, identifier_ends_n: usize,
        bases: In8, bases_n: usize, base_ends: InSize, base_ends_n: usize, marks: In8, marks_n: usize,
        now_identifiers: In8, now_identifiers_n: usize, now_identifier_ends: InSize, now_identifier_ends_n: usize,
        now_bases: In8, now_bases_n: usize, now_base_ends: InSize, now_base_ends_n: usize, now_marks: In8, now_marks_n: usize,
        sheet: In64, sheet_n: usize,
    ) -> u64;
}

/// A call: slices that are written, slices that are read, and single numbers.
macro_rules! call {
    ($f:ident [$($out:expr),*] [$($lent:expr),*] $($more:expr),*) => {
        unsafe { $f($($out.as_mut_ptr(), $out.len(),)* $($lent.as_ptr(), $lent.len(),)* $($more),*) }
    };
}

/// Target i has the identifier bytes and the bases up to its ends; marks: 0 linear, 1 closed.
#[derive(Clone, Copy)]
pub struct Catalogue<'a> {
    pub identifiers: &'a [u8],
    pub identifier_ends: &'a [usize],
    pub bases: &'a [u8],
    pub base_ends: &'a [usize],
    pub marks: &'a [u8],
}

/// The columns of an index.
#[derive(Clone, Copy)]
pub struct Index<'a> {
    pub keys: &'a [u64],
    pub ranks: &'a [u64],
    pub positions: &'a [u64],
}

/// One number of each kind for each target.
pub struct Counters<'a> {
    pub placements: &'a mut [u64],
    pub singles: &'a mut [u64],
    pub multi: &'a mut [u64],
}

/// Counters that are only read.
#[derive(Clone, Copy)]
pub struct KeptCounters<'a> {
    pub placements: &'a [u64],
    pub singles: &'a [u64],
    pub multi: &'a [u64],
}

/// mode: 0 single reads, 1 pairs; remap: 0 off, 1 on.
#[derive(Clone, Copy)]
pub struct Settings {
    pub mode: u8,
    pub remap: u8,
    pub floor: u8,
    pub limit: u64,
}

/// role: 0 S, 1 R1, 2 R2; mark: whether it has qualities.
#[derive(Clone, Copy)]
pub struct Read<'a> {
    pub bases: &'a [u8],
    pub qualities: &'a [u8],
    pub role: u8,
    pub mark: u8,
}

/// Two reads are lent, of which `count` are there; of more, the second stands for all further ones.
#[derive(Clone, Copy)]
pub struct Fragment<'a> {
    pub ordinal: u64,
    pub count: usize,
    pub reads: [Read<'a>; 2],
}

/// Many fragments: counts has the reads of each.
#[derive(Clone, Copy)]
pub struct Fragments<'a> {
    pub ordinals: &'a [u64],
    pub counts: &'a [u64],
    pub roles: &'a [u8],
    pub reads: &'a [u8],
    pub read_ends: &'a [usize],
    pub quality_marks: &'a [u8],
    pub qualities: &'a [u8],
    pub quality_ends: &'a [usize],
}

/// answer: refusal, mapped targets, postings.
pub fn plan(answer: &mut [u64], c: Catalogue, q: usize) -> u64 {
    call!(jekaumeo_plan [answer] [c.identifiers, c.identifier_ends, c.bases, c.base_ends, c.marks] q)
}

/// answer: refusal, postings built.
pub fn build(answer: &mut [u64], keys: &mut [u64], ranks: &mut [u64], positions: &mut [u64], c: Catalogue, q: usize) -> u64 {
    call!(jekaumeo_build [answer, keys, ranks, positions] [c.identifiers, c.identifier_ends, c.bases, c.base_ends, c.marks] q)
}

pub fn check_index(i: Index, c: Catalogue, q: usize) -> u64 {
    call!(jekaumeo_check_index [] [i.keys, i.ranks, i.positions, c.identifiers, c.identifier_ends, c.bases, c.base_ends, c.marks] q)
}

/// answer: refusal, state, groups, lookups, hits, examined, comparisons, seen.
pub fn map(answer: &mut [u64], entries: &mut [u64], i: Index, c: Catalogue, q: usize, read: &[u8], limit: u64) -> u64 {
    call!(jekaumeo_map [answer, entries] [i.keys, i.ranks, i.positions, c.identifiers, c.identifier_ends, c.bases, c.base_ends, c.marks]
        q, read.as_ptr(), read.len(), limit)
}

/// rows: an answer of eight numbers for each read; entries: an equal share for each.
#[allow(clippy::too_many_arguments)]
pub fn map_reads(rows: &mut [u64], entries: &mut [u64], i: Index, c: Catalogue, q: usize, reads: &[u8], read_ends: &[usize], limit: u64) -> u64 {
    call!(jekaumeo_map_reads [rows, entries] [i.keys, i.ranks, i.positions, c.identifiers, c.identifier_ends, c.bases, c.base_ends, c.marks]
        q, reads.as_ptr(), reads.len(), read_ends.as_ptr(), read_ends.len(), limit)
}

/// Without an index it is the plain audit, here and below.
pub fn open(state: &mut [u64], k: Counters, index: Option<Index>, c: Catalogue, s: Settings) -> u64 {
    match index {
        Some(i) => call!(jekaumeo_open [state, k.placements, k.singles, k.multi]
            [i.keys, i.ranks, i.positions, c.identifiers, c.identifier_ends, c.bases, c.base_ends, c.marks] s.mode, s.remap, s.floor, s.limit),
        None => call!(jekaumeo_plain_open [state, k.placements, k.singles, k.multi]
            [c.identifiers, c.identifier_ends, c.bases, c.base_ends, c.marks] s.mode, s.remap, s.floor, s.limit),
    }
}

/// answer: a row of eight numbers for each read, with room for two.
pub fn fragment(answer: &mut [u64], state: &mut [u64], entries: &mut [u64], k: Counters, index: Option<Index>, c: Catalogue, f: Fragment) -> u64 {
    let [a, b] = f.reads;
    match index {
        Some(i) => call!(jekaumeo_fragment [answer, state, entries, k.placements, k.singles, k.multi]
            [i.keys, i.ranks, i.positions, c.identifiers, c.identifier_ends, c.bases, c.base_ends, c.marks, a.bases, a.qualities, b.bases, b.qualities]
            a.role, a.mark, b.role, b.mark, f.ordinal, f.count),
        None => call!(jekaumeo_plain_fragment [answer, state, entries, k.placements, k.singles, k.multi]
            [c.identifiers, c.identifier_ends, c.bases, c.base_ends, c.marks, a.bases, a.qualities, b.bases, b.qualities]
            a.role, a.mark, b.role, b.mark, f.ordinal, f.count),
    }
}

/// rows: a row for each read; entries: an equal share for each fragment.
pub fn fragments(rows: &mut [u64], state: &mut [u64], entries: &mut [u64], k: Counters, i: Index, c: Catalogue, l: Fragments) -> u64 {
    call!(jekaumeo_fragments [rows, state, entries, k.placements, k.singles, k.multi]
        [i.keys, i.ranks, i.positions, c.identifiers, c.identifier_ends, c.bases, c.base_ends, c.marks,
         l.ordinals, l.counts, l.roles, l.reads, l.read_ends, l.quality_marks, l.qualities, l.quality_ends])
}

/// answer: refusal, mode, remap, eighteen counts, status, placements, singles, multi.
pub fn finish(answer: &mut [u64], k: KeptCounters, index: Option<Index>, c: Catalogue, state: &[u64]) -> u64 {
    match index {
        Some(i) => call!(jekaumeo_finish [answer] [k.placements, k.singles, k.multi, i.keys, i.ranks, i.positions,
            c.identifiers, c.identifier_ends, c.bases, c.base_ends, c.marks, state]),
        None => call!(jekaumeo_plain_finish [answer] [k.placements, k.singles, k.multi,
            c.identifiers, c.identifier_ends, c.bases, c.base_ends, c.marks, state]),
    }
}

/// rows: four numbers for each target of `now`; `audited` are the targets that were lent to `finish`.
pub fn apply_to_unitigs(rows: &mut [u64], k: KeptCounters, audited: Catalogue, now: Catalogue, sheet: &[u64]) -> u64 {
    call!(jekaumeo_apply_to_unitigs [rows] [k.placements, k.singles, k.multi,
        audited.identifiers, audited.identifier_ends, audited.bases, audited.base_ends, audited.marks,
        now.identifiers, now.identifier_ends, now.bases, now.base_ends, now.marks, sheet])
}
