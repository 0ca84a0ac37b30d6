//! The mapper's calls on both sides: what they answer and write.

use crate::buffer::{pattern, shown, unless, Buffer, GUARD};
use harness::theirs::{self, Mapper, INDETERMINATE};
use harness::{ours, rules, Catalogue, Columns, MOST_LIMIT};
use std::collections::BTreeMap;
use veritasm::indexed_mapper::IndexedExactMapper;
use veritasm::model::Unitig;

// ---- a case

#[derive(Debug, Clone)]
pub enum Call {
    Plan {
        answer: usize,
    },
    Build {
        answer: usize,
        room: [usize; 3],
    },
    /// The Rust's postings of each seed, against the index of the rules.
    Index,
    Check {
        columns: Option<Columns>,
    },
    Map {
        answer: usize,
        entries: usize,
        columns: Option<Columns>,
        read: Vec<u8>,
        limit: u64,
    },
    Many {
        rows: usize,
        entries: usize,
        columns: Option<Columns>,
        reads: Vec<u8>,
        ends: Vec<usize>,
        limit: u64,
    },
}

/// A catalogue, what the rules say of it, and the Rust's mapper.
pub struct Prepared<'a> {
    pub c: &'a Catalogue,
    pub q: usize,
    pub refusal: u64,
    pub linear: Vec<usize>,
    pub index: Columns,
    plan: Option<Result<(usize, usize), u64>>,
    mapper: Option<Result<Mapper<'a>, u64>>,
}

pub fn prepared<R>(c: &Catalogue, q: usize, then: impl FnOnce(&Prepared) -> R) -> R {
    let refusal = rules::plan_refusal(c, q);
    let unitigs: Option<Vec<Unitig>> = theirs::unitigs(c);
    let right = refusal == 0;
    then(&Prepared {
        c,
        q,
        refusal,
        linear: if right { rules::ranked(c) } else { Vec::new() },
        index: if right { rules::index(c, q) } else { Default::default() },
        plan: unitigs.as_ref().map(|u| {
            let plan = IndexedExactMapper::plan(u, q).map_err(|e| theirs::refusal(&e))?;
            Ok((plan.linear_targets(), plan.posting_count()))
        }),
        mapper: unitigs.as_ref().map(|u| Mapper::new(u, q).map_err(|e| theirs::refusal(&e))),
    })
}

/// What is compared of a case, for the count: the call, the refusal, the state.
pub type Kind = (&'static str, u64, u64);

impl Prepared<'_> {
    /// The Rust refuses the catalogue as the rules do. It has no refusal 2.
    fn agreed(&self) -> Result<(), String> {
        let same = match (&self.mapper, &self.plan, self.refusal) {
            (_, _, 2) | (None, None, 1) => true,
            (Some(Ok(_)), Some(Ok(plan)), 0) => *plan == (self.linear.len(), self.index[0].len()),
            (Some(Err(n)), Some(Err(m)), 1 | 3) => *n == self.refusal && *m == self.refusal,
            // the plan of the Rust does not compare names
            (Some(Err(n)), Some(Ok(_)), 4) => *n == 4,
            _ => false,
        };
        unless(same, "the Rust refuses the catalogue by another number than the rules")
    }

    pub fn mapper(&self) -> Option<&Mapper<'_>> {
        self.mapper.as_ref().and_then(|m| m.as_ref().ok())
    }

    fn index_refusal(&self, columns: &Option<Columns>) -> u64 {
        match columns {
            _ if self.refusal != 0 => self.refusal,
            Some(columns) if *columns != self.index => 6,
            _ => 0,
        }
    }

    /// What `map` has to answer for a read with so many entries: its eight numbers and its groups.
    fn expected(&self, refusal: u64, read: &[u8], limit: u64, entries: usize) -> Result<([u64; 8], Vec<[u64; 4]>), String> {
        let refused = |n| Ok(([n, 0, 0, 0, 0, 0, 0, 0], Vec::new()));
        if refusal != 0 {
            return refused(refusal);
        }
        let n = rules::read_refusal(read, limit);
        if n == 7 {
            return refused(7);
        }
        let mapper = self.mapper().ok_or("the Rust has no mapper")?;
        let answer = match mapper.map(read, limit) {
            Err(e) if n == theirs::refusal(&e) && n != 0 => return refused(n),
            Err(e) => return Err(format!("the Rust refuses the read: {e}")),
            Ok(_) if n != 0 => return Err("the Rust maps a read that the rules refuse".into()),
            Ok(answer) => answer,
        };
        // an indeterminate read has more matches than the limit
        let matches = if answer.state == INDETERMINATE { limit + 1 } else { answer.groups.len() as u64 };
        if rules::room_refusal(entries as u64, limit, matches) != 0 {
            return refused(10);
        }
        let w = answer.work;
        Ok(([0, answer.state, answer.groups.len() as u64, w[0], w[1], w[2], w[3], w[4]], answer.groups))
    }

    fn compare(&self, call: &Call) -> (Kind, Result<(), String>) {
        let agreed = self.agreed();
        let (kind, result) = match call {
            Call::Plan { answer } => self.compare_plan(*answer),
            Call::Build { answer, room } => self.compare_build(*answer, room),
            Call::Index => (("index", self.refusal, 0), self.compare_index()),
            Call::Check { columns } => {
                let refusal = self.index_refusal(columns);
                let r = ours::check_index(columns.as_ref().unwrap_or(&self.index), self.c, self.q);
                (("check_index", refusal, 0), unless(r == refusal, &format!("refusal {r}, not {refusal}")))
            }
            Call::Map { answer, entries, columns, read, limit } => self.compare_map(*answer, *entries, columns, read, *limit),
            Call::Many { rows, entries, columns, reads, ends, limit } => self.compare_many(*rows, *entries, columns, reads, ends, *limit),
        };
        (kind, agreed.and(result))
    }

    fn compare_plan(&self, n: usize) -> (Kind, Result<(), String>) {
        let refusal = if n < 3 { 26 } else { self.refusal };
        let mut answer = Buffer::new(n);
        let r = ours::plan(answer.lent(), self.c, self.q);
        let numbers = [self.refusal, self.linear.len() as u64, self.index[0].len() as u64];
        let written = if n < 3 { answer.untouched() } else { answer.holds(numbers.iter(), 0) };
        let result = unless(r == refusal, &format!("refusal {r}, not {refusal}"))
            .and(unless(written, &format!("the answer {:?}, not {numbers:?}", answer.lent())));
        (("plan", refusal, 0), result)
    }

    fn compare_build(&self, n: usize, room: &[usize; 3]) -> (Kind, Result<(), String>) {
        let postings = self.index[0].len();
        let own = match self.refusal {
            0 if *room.iter().min().unwrap() < postings => 5,
            n => n,
        };
        let refusal = if n < 2 { 26 } else { own };
        let mut answer = Buffer::new(n);
        let mut columns = room.map(Buffer::new);
        let [keys, ranks, positions] = &mut columns;
        let r = ours::build(answer.lent(), [keys.lent(), ranks.lent(), positions.lent()], self.c, self.q);
        let numbers = [own, if own == 0 { postings as u64 } else { 0 }];
        let written = if n < 2 { answer.untouched() } else { answer.holds(numbers.iter(), 0) };
        let built = (0..3).all(|i| if refusal == 0 { columns[i].holds(self.index[i].iter(), 0) } else { columns[i].untouched() });
        let result = unless(r == refusal, &format!("refusal {r}, not {refusal}"))
            .and(unless(written, &format!("the answer {:?}, not {numbers:?}", answer.lent())))
            .and(unless(built, "a column holds something else"));
        (("build", refusal, 0), result)
    }

    /// The postings of every key, as the Rust finds them, are the rows with that key, and there are no others.
    fn compare_index(&self) -> Result<(), String> {
        if self.refusal != 0 {
            return Ok(());
        }
        let mapper = self.mapper().ok_or("the Rust has no mapper")?;
        let [keys, ranks, positions] = &self.index;
        unless(mapper.inner.posting_count() == keys.len(), "the Rust has another number of postings")?;
        unless(mapper.inner.target_count() == self.linear.len(), "the Rust has another number of targets")?;
        let mut at = 0;
        while at < keys.len() {
            let key = keys[at];
            let end = at + keys[at..].iter().take_while(|&&k| k == key).count();
            let seed: Vec<u8> = (0..self.q).rev().map(|i| b"ACGT"[(key >> (2 * i)) as usize & 3]).collect();
            let rows = (at..end).map(|i| (self.linear[ranks[i] as usize] as u64, positions[i]));
            unless(rows.eq(mapper.postings_of(&seed)), "the Rust has other postings of a seed")?;
            at = end;
        }
        Ok(())
    }

    fn compare_map(&self, n: usize, numbers: usize, columns: &Option<Columns>, read: &[u8], limit: u64) -> (Kind, Result<(), String>) {
        let (row, groups) = match self.expected(self.index_refusal(columns), read, limit, numbers / 4) {
            Ok(expected) => expected,
            Err(text) => return (("map", 0, 0), Err(text)),
        };
        let refusal = if n < 8 { 26 } else { row[0] };
        let mut answer = Buffer::new(n);
        let mut entries = Buffer::new(numbers);
        let lent = columns.as_ref().unwrap_or(&self.index);
        let r = ours::map(answer.lent(), entries.lent(), lent, self.c, self.q, read, limit);
        let written = if n < 8 { answer.untouched() } else { answer.holds(row.iter(), 0) };
        let listed = match refusal {
            0 | 10 => entries.holds(groups.iter().flatten(), numbers / 4 * 4),
            _ => entries.untouched(),
        };
        let result = unless(r == refusal, &format!("refusal {r}, not {refusal}"))
            .and(unless(written, &format!("the answer {:?}, not {row:?}", answer.lent())))
            .and(unless(listed, "the entries hold something else"));
        (("map", refusal, if refusal == 0 { row[1] } else { 0 }), result)
    }

    /// Refusals of the whole call: 1 to 4, 6, 9, then 25.
    fn compare_many(
        &self,
        n: usize,
        numbers: usize,
        columns: &Option<Columns>,
        reads: &[u8],
        ends: &[usize],
        limit: u64,
    ) -> (Kind, Result<(), String>) {
        let right = n == 8 * ends.len() && ends.iter().try_fold(0, |from, &to| reads.get(from..to).map(|_| to)).is_some();
        let refusal = match self.index_refusal(columns) {
            0 if !(1..=MOST_LIMIT).contains(&limit) => 9,
            0 if !right => 25,
            n => n,
        };
        let mut rows = Buffer::new(n);
        let mut entries = Buffer::new(numbers);
        let lent = columns.as_ref().unwrap_or(&self.index);
        let r = ours::map_reads(rows.lent(), entries.lent(), lent, self.c, self.q, reads, ends, limit);
        let kind = ("map_reads", refusal, 0);
        if let Err(text) = unless(r == refusal, &format!("refusal {r}, not {refusal}")) {
            return (kind, Err(text));
        }
        if refusal != 0 {
            return (kind, unless(rows.untouched() && entries.untouched(), "a refused call writes"));
        }
        let share = if ends.is_empty() { 0 } else { numbers / 4 / ends.len() };
        let (mut all_rows, mut all_entries) = (Vec::new(), Vec::new());
        let mut from = 0;
        for &to in ends {
            let (row, groups) = match self.expected(0, &reads[from..to], limit, share) {
                Ok(expected) => expected,
                Err(text) => return (kind, Err(text)),
            };
            let before = all_entries.len();
            all_rows.extend(row);
            if row[0] == 0 || row[0] == 10 {
                all_entries.extend(groups.iter().flatten());
                all_entries.resize(before + 4 * share, 0);
            } else {
                all_entries.extend((0..4 * share).map(|i| pattern(GUARD + before + i)));
            }
            from = to;
        }
        let result = unless(rows.holds(all_rows.iter(), 0), &format!("the rows {:?}, not {all_rows:?}", rows.lent()))
            .and(unless(entries.holds(all_entries.iter(), 0), "the entries hold something else"));
        (kind, result)
    }
}

// ---- the count, and the smallest difference

#[derive(Default)]
pub struct Tally {
    pub compared: u64,
    pub different: u64,
    kinds: BTreeMap<Kind, u64>,
    notes: BTreeMap<&'static str, u64>,
    smallest: Option<(usize, String)>,
}

fn size(c: &Catalogue, call: &Call) -> usize {
    let more = match call {
        Call::Map { read, .. } => read.len(),
        Call::Many { reads, .. } => reads.len(),
        _ => 0,
    };
    c.identifiers.len() + c.bases.len() + c.marks.len() + more
}

fn describe(c: &Catalogue, q: usize, call: &Call, text: &str) -> String {
    let call = match call {
        Call::Map { answer, entries, columns, read, limit } => format!(
            "map, read {}, limit {limit}, {entries} numbers of entries, {answer} of answer, columns {}",
            shown(read),
            columns.as_ref().map_or("as built".into(), |c| format!("{c:?}")),
        ),
        other => format!("{other:?}"),
    };
    format!(
        "{text}\n  identifiers {} ends {:?}\n  bases {} ends {:?}\n  marks {:?}\n  seed {q}\n  {call}",
        shown(&c.identifiers),
        c.identifier_ends,
        shown(&c.bases),
        c.base_ends,
        c.marks,
    )
}

/// Smaller inputs of the same kind.
fn smaller(c: &Catalogue, call: &Call) -> Vec<(Catalogue, Call)> {
    let mut all = Vec::new();
    if let Call::Map { answer, entries, columns, read, limit } = call {
        for part in [&read[read.len().min(1)..], &read[..read.len().saturating_sub(1)], &read[..read.len() / 2], &read[read.len() / 2..]] {
            let (answer, entries, columns, limit) = (*answer, *entries, columns.clone(), *limit);
            all.push((c.clone(), Call::Map { answer, entries, columns, read: part.to_vec(), limit }));
        }
    }
    let lent = matches!(call, Call::Map { columns: Some(_), .. } | Call::Check { columns: Some(_) } | Call::Many { .. });
    if let (false, Some(targets)) = (lent, c.targets()) {
        let without = |change: &dyn Fn(usize, &[u8]) -> Option<Vec<u8>>| {
            let mut next = Catalogue::default();
            for (i, t) in targets.iter().enumerate() {
                if let Some(bases) = change(i, t.1) {
                    next.push(t.0, &bases, t.2);
                }
            }
            next
        };
        for k in 0..targets.len() {
            all.push((without(&|i, b| (i != k).then(|| b.to_vec())), call.clone()));
            let cut = |f: &dyn Fn(&[u8]) -> Vec<u8>| without(&|i, b| Some(if i == k { f(b) } else { b.to_vec() }));
            all.push((cut(&|b| b[..b.len() / 2].to_vec()), call.clone()));
            all.push((cut(&|b| b[b.len() / 2..].to_vec()), call.clone()));
            all.push((cut(&|b| b[b.len().min(1)..].to_vec()), call.clone()));
            all.push((cut(&|b| b[..b.len().saturating_sub(1)].to_vec()), call.clone()));
        }
    }
    all
}

impl Tally {
    pub fn run(&mut self, p: &Prepared, call: Call) {
        let (kind, result) = p.compare(&call);
        self.compared += 1;
        *self.kinds.entry(kind).or_default() += 1;
        if let Err(text) = result {
            self.different += 1;
            self.note(p, call, text);
        }
    }

    fn note(&mut self, p: &Prepared, call: Call, text: String) {
        let (mut c, mut call, mut text) = (p.c.clone(), call, text);
        if self.different <= 20 && size(&c, &call) < 100_000 {
            while let Some(next) = smaller(&c, &call).into_iter().find_map(|(c2, call2)| {
                let less = size(&c2, &call2) < size(&c, &call);
                let found = less.then(|| prepared(&c2, p.q, |p| p.compare(&call2).1.err())).flatten();
                found.map(|t| (c2, call2, t))
            }) {
                (c, call, text) = next;
            }
        }
        let n = size(&c, &call);
        if self.smallest.as_ref().is_none_or(|s| n < s.0) {
            self.smallest = Some((n, describe(&c, p.q, &call, &text)));
        }
    }

    pub fn count(&mut self, what: &'static str, holds: bool) {
        *self.notes.entry(what).or_default() += u64::from(holds);
    }

    pub fn print(&self) {
        println!("cases by call, refusal and state:");
        for ((call, refusal, state), n) in &self.kinds {
            let answer = match (*call, *refusal) {
                ("map", 0) => format!("state {state}"),
                (_, 0) => "accepted".into(),
                (_, r) => format!("refused {r}"),
            };
            println!("  {call:<12} {answer:<11} {n:>9}");
        }
        println!("of the random maps:");
        for (what, n) in &self.notes {
            println!("  {what:<42} {n:>9}");
        }
        if let Some((_, text)) = &self.smallest {
            println!("the smallest that differs: {text}");
        }
    }
}
