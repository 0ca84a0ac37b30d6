//! The rules for whole audits, said plainly, on numbers like those that are lent to the library.
//!
//! They stand in where the Rust has no such answer. It differs from them in this:
//! - It has no 2, 6, 7, 10, 25 and 26. Its books cannot be lent, so that 17 and 18 never come.
//! - It keeps the ordinal of a fragment that it refuses by 14 to 16, and books R1 of a pair that it refuses for R2; by
//!   the rules a refused call leaves everything as it was. So a run of the Rust ends at its first error.
//! - With remap off it looks at name and bases target by target, so that 4 may come before 3; by the rules 3 comes first.
//! - One text stands for 11 and 9; by the rules 11 comes first.
//! - `apply_to_unitigs` may have written some targets when it refuses.
//!
//! The work of a search by the index is taken from the Rust's mapper, which is asked read by read; its state and groups
//! have to be those that are found here.

use crate::audits::{Fragment, Read, Settings, CLOSED_WALK, COMPLETE};
use crate::lent::{LentFragment, LentFragments};
use crate::model_books::Books;
use crate::theirs::{Answer, Mapper, INDETERMINATE};
use crate::{inputs, rules, Catalogue, Columns, MOST_LIMIT};
use veritasm::model::Unitig;

pub const SEED: usize = 15;
pub const STATE_NUMBERS: usize = 32;
pub const SHEET_NUMBERS: usize = 25;
pub const ROW_NUMBERS: usize = 8;

/// Placements, singles and multi, one number a target.
pub type Counters = [Vec<u64>; 3];

/// A catalogue, and what the rules say of it.
pub struct Targets<'a> {
    pub c: &'a Catalogue,
    /// 2, 3, 4, or 0.
    pub refusal: u64,
    /// The linear targets by rank: supplied place and bases.
    pub linear: Vec<(u64, &'a [u8])>,
    pub index: Columns,
    mapper: Option<Mapper<'a>>,
}

impl<'a> Targets<'a> {
    /// With the Rust's form of the same targets, if they are right.
    pub fn new(c: &'a Catalogue, unitigs: Option<&'a [Unitig]>) -> Self {
        let refusal = rules::plan_refusal(c, SEED);
        if refusal != 0 {
            return Self { c, refusal, linear: Vec::new(), index: Default::default(), mapper: None };
        }
        let targets = c.targets().expect("a right catalogue");
        let linear = rules::ranked(c).into_iter().map(|i| (i as u64, targets[i].1)).collect();
        let mapper = unitigs.map(|u| Mapper::new(u, SEED).expect("the Rust builds an index of right targets"));
        Self { c, refusal, linear, index: rules::index(c, SEED), mapper }
    }

    /// Every fitting place by rank, start, strand, as an entry, and whether the read matches there.
    fn compared(&self, read: &[u8]) -> Vec<([u64; 4], bool)> {
        let turned = inputs::turned(read);
        let mut all = Vec::new();
        for &(place, bases) in &self.linear {
            for (start, window) in bases.windows(read.len()).enumerate() {
                let (from, to) = (start as u64, (start + read.len()) as u64);
                all.push(([place, from, to, 0], window == read));
                all.push(([place, from, to, 1], window == turned));
            }
        }
        all
    }

    /// What is answered for an eligible read in upper case, by the index or plainly, and the number of its matches.
    fn searched(&self, read: &[u8], limit: u64, by_index: bool) -> (Answer, u64) {
        let compared = self.compared(read);
        let matching: Vec<[u64; 4]> = compared.iter().filter(|x| x.1).map(|x| x.0).collect();
        let matches = matching.len() as u64;
        let within = matches <= limit;
        let state = match matches {
            _ if !within => INDETERMINATE,
            0 => 3,
            1 => 4,
            _ => 5,
        };
        let groups = if within { matching } else { Vec::new() };
        let work = if by_index {
            let mapper = self.mapper.as_ref().expect("the Rust has the targets");
            let mapped = mapper.map(read, limit).expect("an eligible read is mapped");
            assert!(mapped.state == state && mapped.groups == groups, "the Rust's mapper finds other groups than the rules");
            mapped.work
        } else {
            // up to the first match past the limit
            let mut seen = 0;
            let stop = compared.iter().position(|x| {
                seen += u64::from(x.1);
                seen > limit
            });
            let comparisons = stop.map_or(compared.len(), |at| at + 1);
            [0, 0, 0, comparisons as u64, seen]
        };
        (Answer { state, groups, work }, matches)
    }
}

/// 11, 9, 2, 3, 4, and 6 with remap on; the plain audit is lent no index.
fn opening_refusal(t: &Targets, lent: Option<&Columns>, s: &Settings, counters: &Counters) -> u64 {
    if s.floor > 93 {
        return 11;
    }
    if !(1..=MOST_LIMIT).contains(&s.limit) {
        return 9;
    }
    if t.refusal == 2 || counters.iter().any(|k| k.len() != t.c.marks.len()) {
        return 2;
    }
    if t.refusal != 0 {
        return t.refusal;
    }
    if s.remap == 1 && lent.is_some_and(|columns| *columns != t.index) {
        return 6;
    }
    0
}

pub fn open(state: &mut [u64], counters: &mut Counters, t: &Targets, lent: Option<&Columns>, s: &Settings) -> u64 {
    if state.len() != STATE_NUMBERS || s.mode > 1 || s.remap > 1 {
        return 26;
    }
    let refusal = opening_refusal(t, lent, s, counters);
    if refusal == 0 {
        state.copy_from_slice(&Books::fresh(*s).numbers());
        counters.iter_mut().for_each(|k| k.fill(0));
    } else {
        state.fill(0);
        state[0] = 1;
    }
    refusal
}

enum Sight {
    Refused(u64),
    /// Not searched, in state 0 or 1.
    Passed(u64),
    /// In upper case.
    Eligible(Vec<u8>),
}

/// 7, and with remap on 14 to 16 and eligibility.
fn sight(read: &Read, s: &Settings) -> Sight {
    if read.bases.len() > 65535 {
        return Sight::Refused(7);
    }
    if s.remap == 0 {
        return Sight::Passed(0);
    }
    if read.bases.is_empty() {
        return Sight::Refused(14);
    }
    if let Some(qualities) = &read.qualities {
        if qualities.len() != read.bases.len() {
            return Sight::Refused(15);
        }
        for q in qualities {
            match q {
                33..=126 if q - 33 < s.floor => return Sight::Passed(1),
                33..=126 => {}
                _ => return Sight::Refused(16),
            }
        }
    }
    let upper = read.bases.to_ascii_uppercase();
    if upper.iter().any(|b| !b"ACGT".contains(b)) {
        return Sight::Passed(1);
    }
    Sight::Eligible(upper)
}

/// What a fragment comes to in a catalogue that was tested: its refusal, or the books and counters behind it and a row for
/// each read with its groups. `entries` is how many are lent.
type Observed = Result<(Books, Counters, Vec<Answer>), u64>;

fn observe(t: &Targets, by_index: bool, books: &Books, counters: &Counters, f: &Fragment, entries: usize) -> Observed {
    let s = &books.settings;
    if books.last.is_some_and(|last| f.ordinal <= last) {
        return Err(12);
    }
    if !f.reads.iter().map(|r| r.role).eq(books.roles().iter().copied()) {
        return Err(13);
    }
    let mut sights = Vec::new();
    for read in &f.reads {
        match sight(read, s) {
            Sight::Refused(n) => return Err(n),
            other => sights.push(other),
        }
    }
    let share = (entries / f.reads.len()) as u64;
    let mut answers = Vec::new();
    for sight in sights {
        answers.push(match sight {
            Sight::Eligible(read) => {
                let (answer, matches) = t.searched(&read, s.limit, by_index);
                if rules::room_refusal(share, s.limit, matches) != 0 {
                    return Err(10);
                }
                answer
            }
            Sight::Passed(state) => Answer { state, groups: Vec::new(), work: [0; 5] },
            Sight::Refused(n) => return Err(n),
        });
    }
    let (mut books, mut counters) = (books.clone(), counters.clone());
    for (read, answer) in f.reads.iter().zip(&answers) {
        books.book(&mut counters, read.role, answer).ok_or(17_u64)?;
    }
    books.last = Some(f.ordinal);
    Ok((books, counters, answers))
}

/// The entries behind a fragment: 10 and 17 zero them all, other refusals leave them; accepted, each read's part has its
/// groups in front of zeros. Numbers behind the last whole entry stay.
fn write_entries(entries: &mut [u64], observed: &Observed) {
    let whole = entries.len() / 4 * 4;
    match observed {
        Err(10 | 17) => entries[..whole].fill(0),
        Err(_) => {}
        Ok((_, _, answers)) => {
            entries[..whole].fill(0);
            let width = 4 * (whole / 4 / answers.len());
            for (i, answer) in answers.iter().enumerate() {
                let numbers = answer.groups.as_flattened();
                entries[i * width..][..numbers.len()].copy_from_slice(numbers);
            }
        }
    }
}

fn row(answer: &Answer) -> [u64; ROW_NUMBERS] {
    let w = answer.work;
    [0, answer.state, answer.groups.len() as u64, w[0], w[1], w[2], w[3], w[4]]
}

pub fn fragment(
    answer: &mut [u64],
    state: &mut [u64],
    entries: &mut [u64],
    counters: &mut Counters,
    t: &Targets,
    lent: Option<&Columns>,
    f: &LentFragment,
) -> u64 {
    let wrong = f.reads.iter().any(|r| r.role > 2 || r.mark > 1) || answer.len() < 2 * ROW_NUMBERS;
    let Some(books) = Books::of(state).filter(|_| !wrong) else { return 26 };
    let fragment = f.fragment();
    let observed = match opening_refusal(t, lent, &books.settings, counters) {
        0 => observe(t, lent.is_some(), &books, counters, &fragment, entries.len() / 4),
        n => Err(n),
    };
    write_entries(entries, &observed);
    match observed {
        Err(n) => {
            answer[..2 * ROW_NUMBERS].fill(0);
            answer[0] = n;
            answer[ROW_NUMBERS] = n;
            n
        }
        Ok((books, after, answers)) => {
            for (i, a) in answers.iter().enumerate() {
                answer[ROW_NUMBERS * i..][..ROW_NUMBERS].copy_from_slice(&row(a));
            }
            state.copy_from_slice(&books.numbers());
            *counters = after;
            0
        }
    }
}

pub fn fragments(
    rows: &mut [u64],
    state: &mut [u64],
    entries: &mut [u64],
    counters: &mut Counters,
    t: &Targets,
    lent: Option<&Columns>,
    l: &LentFragments,
) -> u64 {
    let Some(mut books) = Books::of(state) else { return 26 };
    let refusal = opening_refusal(t, lent, &books.settings, counters);
    if refusal != 0 {
        return refusal;
    }
    let Some(list) = l.fragments(rows.len()) else { return 25 };
    let width = if list.is_empty() { 0 } else { entries.len() / 4 / list.len() * 4 };
    let mut rows = rows.chunks_exact_mut(ROW_NUMBERS);
    for (i, f) in list.iter().enumerate() {
        let observed = observe(t, lent.is_some(), &books, counters, f, width / 4);
        write_entries(&mut entries[i * width..(i + 1) * width], &observed);
        match observed {
            Err(n) => (0..f.reads.len()).for_each(|_| rows.next().unwrap().copy_from_slice(&[n, 0, 0, 0, 0, 0, 0, 0])),
            Ok((after, k, answers)) => {
                answers.iter().for_each(|a| rows.next().unwrap().copy_from_slice(&row(a)));
                books = after;
                *counters = k;
            }
        }
    }
    state.copy_from_slice(&books.numbers());
    0
}

pub fn finish(answer: &mut [u64], counters: &Counters, t: &Targets, lent: Option<&Columns>, state: &[u64]) -> u64 {
    let Some(books) = Books::of(state).filter(|_| answer.len() >= SHEET_NUMBERS) else { return 26 };
    let refusal = match opening_refusal(t, lent, &books.settings, counters) {
        0 if books.apart(counters) => 18,
        n => n,
    };
    let sheet = &mut answer[..SHEET_NUMBERS];
    sheet.fill(0);
    sheet[0] = refusal;
    if refusal == 0 {
        let status = books.status();
        sheet[1] = books.settings.mode.into();
        sheet[2] = books.settings.remap.into();
        sheet[3..21].copy_from_slice(&books.table);
        sheet[21] = status;
        if status == COMPLETE {
            sheet[22..].copy_from_slice(&books.totals);
        }
    }
    refusal
}

/// `audited` are the targets that were lent to `finish`, `now` those that are lent now.
pub fn apply_to_unitigs(rows: &mut [u64], counters: &Counters, audited: &Catalogue, now: &Catalogue, sheet: &[u64]) -> u64 {
    let right = sheet.len() == SHEET_NUMBERS && sheet[0] == 0 && sheet[1] <= 1 && sheet[2] <= 1 && sheet[21] <= CLOSED_WALK;
    if !right || (sheet[21] != COMPLETE && sheet[22..] != [0; 3]) {
        return 26;
    }
    let in_bounds = |c: &Catalogue| rules::plan_refusal(c, SEED) != 2;
    let n = now.marks.len();
    if !in_bounds(now) || !in_bounds(audited) || counters.iter().any(|k| k.len() != audited.marks.len()) || rows.len() != 4 * n {
        return 2;
    }
    let (was, is) = (audited.targets().expect("right ends"), now.targets().expect("right ends"));
    if was.len() != is.len() || was.iter().zip(&is).any(|(a, b)| (a.0, a.2) != (b.0, b.2)) {
        return 19;
    }
    for (i, row) in rows.chunks_exact_mut(4).enumerate() {
        let status = if is[i].2 == 1 { CLOSED_WALK } else { sheet[21] };
        let totals = if status == COMPLETE { [0, 1, 2].map(|k: usize| counters[k][i]) } else { [0; 3] };
        row.copy_from_slice(&[status, totals[0], totals[1], totals[2]]);
    }
    0
}
