//! Whole audits on both sides: by single calls, by lists, and plain with some reads turned round.

use crate::audit_case::{Audit, Change, Flaw};
use crate::buffer::Buffer;
use crate::count::Count;
use harness::audits::{Fragment, Settings};
use harness::lent::{LentFragment, LentFragments};
use harness::model_audit::{self as model, Counters, Targets};
use harness::model_audit::{ROW_NUMBERS, SHEET_NUMBERS, STATE_NUMBERS};
use harness::{ours_audit as ours, Columns};

// ---- what a run holds on our side and by the rules

struct Held {
    state: Buffer,
    counters: [Buffer; 3],
    rules_state: Vec<u64>,
    rules_counters: Counters,
}

impl Held {
    /// A pattern in every number, one counter of each kind for each target.
    fn new(targets: usize) -> Self {
        Self::of(Buffer::new(STATE_NUMBERS), [0; 3].map(|_| Buffer::new(targets)))
    }

    fn of(state: Buffer, counters: [Buffer; 3]) -> Self {
        let rules_counters = [0, 1, 2].map(|i: usize| counters[i].numbers().to_vec());
        Self { rules_state: state.numbers().to_vec(), rules_counters, state, counters }
    }

    fn set(&mut self, change: &Change) {
        match *change {
            Change::State(at, n) => self.state.put(at, n),
            Change::Counter(column, at, n) => self.counters[column].put(at, n),
        }
        *self = Self::of(self.state.clone(), self.counters.clone());
    }

    /// A copy with these flaws.
    fn flawed(&self, flaws: &[Flaw]) -> Self {
        let (mut state, mut counters) = (self.state.clone(), self.counters.clone());
        for flaw in flaws {
            match *flaw {
                Flaw::StateLength(n) => state = state.resized(n),
                Flaw::CountersLength(column, n) => counters[column] = counters[column].resized(n),
                Flaw::State(at, n) => state.put(at, n),
                Flaw::Counter(column, at, n) => counters[column].put(at, n),
                _ => {}
            }
        }
        Self::of(state, counters)
    }

    fn lent(&mut self) -> (&mut [u64], [&mut [u64]; 3]) {
        (self.state.lent(), self.counters.each_mut().map(|k| k.lent()))
    }

    fn same(&self) -> Result<(), String> {
        written("the state", &self.state, &self.rules_state)?;
        written("placements", &self.counters[0], &self.rules_counters[0])?;
        written("singles", &self.counters[1], &self.rules_counters[1])?;
        written("multi", &self.counters[2], &self.rules_counters[2])
    }
}

fn refused(ours: u64, rules: u64) -> Result<(), String> {
    if ours == rules {
        return Ok(());
    }
    Err(format!("refusal {ours}, not {rules}"))
}

fn written(what: &str, ours: &Buffer, rules: &[u64]) -> Result<(), String> {
    if ours.is(rules) {
        return Ok(());
    }
    Err(format!("{what}: {:?}, not {rules:?}", ours.numbers()))
}

// ---- the calls, each made on both sides

/// How an audit searches, and what it is lent for that.
#[derive(Clone, Copy, PartialEq)]
enum Way {
    Index,
    Plain,
}

struct Side<'a> {
    t: &'a Targets<'a>,
    /// Of the opening's targets.
    index: &'a Columns,
    way: Way,
}

/// What a fragment's call answered and left in its entries.
pub struct Answered {
    pub refusal: u64,
    pub answer: Vec<u64>,
    pub entries: Vec<u64>,
}

/// All that is seen of a run.
pub struct Seen {
    pub opening: u64,
    pub calls: Vec<Answered>,
    pub finish: u64,
    pub sheet: Vec<u64>,
    pub applied: u64,
    pub rows: Vec<u64>,
    pub state: Vec<u64>,
    pub counters: Counters,
}

/// The first flaw of a kind.
macro_rules! flaw {
    ($flaws:expr, $kind:pat => $value:expr) => {
        $flaws.iter().find_map(|flaw| match flaw {
            $kind => Some($value),
            _ => None,
        })
    };
}

impl Side<'_> {
    fn columns<'b>(&'b self, flaws: &'b [Flaw]) -> Option<&'b Columns> {
        let stale = flaw!(flaws, Flaw::Stale(columns) => columns);
        (self.way == Way::Index).then_some(stale.unwrap_or(self.index))
    }

    /// With the targets that are lent at a call.
    fn lent<R>(&self, flaws: &[Flaw], then: impl FnOnce(&Side) -> R) -> R {
        let Some(c) = flaw!(flaws, Flaw::Targets(c) => c) else { return then(self) };
        let unitigs = harness::theirs::unitigs(c);
        then(&Side { t: &Targets::new(c, unitigs.as_deref()), ..*self })
    }

    fn name(&self, index: &'static str, plain: &'static str) -> &'static str {
        if self.way == Way::Index {
            index
        } else {
            plain
        }
    }

    fn open(&self, held: &mut Held, settings: &Settings, flaws: &[Flaw], count: &mut Count) -> Result<u64, String> {
        let settings = flaw!(flaws, Flaw::Settings(s) => s).unwrap_or(settings);
        let columns = self.columns(flaws);
        let (state, counters) = held.lent();
        let r = ours::open(state, counters, columns, self.t.c, settings);
        let m = model::open(&mut held.rules_state, &mut held.rules_counters, self.t, columns, settings);
        let name = self.name("open", "plain_open");
        count.call(name, m);
        refused(r, m).and(held.same()).map_err(|text| format!("{name}: {text}"))?;
        Ok(m)
    }

    fn fragment(&self, held: &mut Held, f: &Fragment, entries: usize, flaws: &[Flaw], count: &mut Count) -> Result<Answered, String> {
        let mut lent = LentFragment::of(f);
        if let Some(marks) = flaw!(flaws, Flaw::Marks(marks) => marks) {
            (lent.reads[0].mark, lent.reads[1].mark) = (marks[0], marks[1]);
        }
        lent.count = flaw!(flaws, Flaw::Count(n) => *n).unwrap_or(lent.count);
        let columns = self.columns(flaws);
        let mut answer = Buffer::new(flaw!(flaws, Flaw::AnswerLength(n) => *n).unwrap_or(2 * ROW_NUMBERS));
        let mut entries = Buffer::new(entries);
        let (mut rules_answer, mut rules_entries) = (answer.numbers().to_vec(), entries.numbers().to_vec());
        let (state, counters) = held.lent();
        let r = ours::fragment(answer.lent(), state, entries.lent(), counters, columns, self.t.c, &lent);
        let (state, counters) = (&mut held.rules_state, &mut held.rules_counters);
        let m = model::fragment(&mut rules_answer, state, &mut rules_entries, counters, self.t, columns, &lent);
        let name = self.name("fragment", "plain_fragment");
        count.call(name, m);
        refused(r, m)
            .and(written("the answer", &answer, &rules_answer))
            .and(written("the entries", &entries, &rules_entries))
            .and(held.same())
            .map_err(|text| format!("{name}, ordinal {}: {text}", f.ordinal))?;
        Ok(Answered { refusal: r, answer: answer.numbers().to_vec(), entries: entries.numbers().to_vec() })
    }

    fn list(&self, held: &mut Held, l: &LentFragments, entries: usize, flaws: &[Flaw], count: &mut Count) -> Result<(), String> {
        let (l, rows) = flaw!(flaws, Flaw::List(l, rows) => (l, *rows)).unwrap_or((l, ROW_NUMBERS * l.roles.len()));
        let columns = self.columns(flaws).expect("lists are audited by the index");
        let (mut rows, mut entries) = (Buffer::new(rows), Buffer::new(entries));
        let (mut rules_rows, mut rules_entries) = (rows.numbers().to_vec(), entries.numbers().to_vec());
        let (state, counters) = held.lent();
        let r = ours::fragments(rows.lent(), state, entries.lent(), counters, columns, self.t.c, l);
        let (state, counters) = (&mut held.rules_state, &mut held.rules_counters);
        let m = model::fragments(&mut rules_rows, state, &mut rules_entries, counters, self.t, Some(columns), l);
        count.call("fragments", m);
        count.list(m, l, &rules_rows);
        refused(r, m)
            .and(written("the rows", &rows, &rules_rows))
            .and(written("the entries", &entries, &rules_entries))
            .and(held.same())
            .map_err(|text| format!("fragments: {text}"))
    }

    fn finish(&self, held: &Held, flaws: &[Flaw], count: &mut Count) -> Result<(u64, Vec<u64>), String> {
        let columns = self.columns(flaws);
        let mut answer = Buffer::new(flaw!(flaws, Flaw::AnswerLength(n) => *n).unwrap_or(SHEET_NUMBERS));
        let mut rules_answer = answer.numbers().to_vec();
        let r = ours::finish(answer.lent(), held.counters.each_ref().map(|k| k.numbers()), columns, self.t.c, held.state.numbers());
        let m = model::finish(&mut rules_answer, &held.rules_counters, self.t, columns, &held.rules_state);
        let name = self.name("finish", "plain_finish");
        count.call(name, m);
        refused(r, m).and(written("the answer", &answer, &rules_answer)).and(held.same()).map_err(|text| format!("{name}: {text}"))?;
        Ok((m, answer.numbers().to_vec()))
    }

    fn apply(&self, held: &Held, sheet: &[u64], flaws: &[Flaw], count: &mut Count) -> Result<(u64, Vec<u64>), String> {
        let now = flaw!(flaws, Flaw::Now(c) => c).unwrap_or(self.t.c);
        let mut sheet = sheet.to_vec();
        for flaw in flaws {
            match *flaw {
                Flaw::SheetLength(n) => sheet.resize(n, 0),
                Flaw::Sheet(at, n) if at < sheet.len() => sheet[at] = n,
                _ => {}
            }
        }
        let mut rows = Buffer::new(flaw!(flaws, Flaw::AnswerLength(n) => *n).unwrap_or(4 * now.marks.len()));
        let mut rules_rows = rows.numbers().to_vec();
        let counters = held.counters.each_ref().map(|k| k.numbers());
        let r = ours::apply_to_unitigs(rows.lent(), counters, self.t.c, now, &sheet);
        let m = model::apply_to_unitigs(&mut rules_rows, &held.rules_counters, self.t.c, now, &sheet);
        count.call("apply_to_unitigs", m);
        refused(r, m).and(written("the rows", &rows, &rules_rows)).and(held.same()).map_err(|text| format!("apply_to_unitigs: {text}"))?;
        Ok((m, rows.numbers().to_vec()))
    }

    /// Opening, fragments one by one, `finish`, and the rows of the targets.
    fn singly(&self, audit: &Audit, count: &mut Count) -> Result<Seen, String> {
        let mut held = Held::new(audit.c.marks.len());
        for flaws in &audit.flawed_opening {
            self.open(&mut held.flawed(flaws), &audit.settings, flaws, count)?;
        }
        let opening = self.open(&mut held, &audit.settings, &[], count)?;
        let mut calls = Vec::new();
        for call in &audit.calls {
            call.changes.iter().for_each(|change| held.set(change));
            let (fragment, entries) = match self.way {
                Way::Index => (call.fragment.clone(), call.fragment.entries),
                Way::Plain => (call.turned(), call.plain_entries),
            };
            for flaws in &call.flawed {
                self.lent(flaws, |side| side.fragment(&mut held.flawed(flaws), &fragment, entries, flaws, count))?;
            }
            calls.push(self.fragment(&mut held, &fragment, entries, &[], count)?);
        }
        audit.changes.iter().for_each(|change| held.set(change));
        for flaws in &audit.flawed_finish {
            self.lent(flaws, |side| side.finish(&held.flawed(flaws), flaws, count))?;
        }
        let (finish, sheet) = self.finish(&held, &[], count)?;
        for flaws in &audit.flawed_apply {
            self.apply(&held.flawed(flaws), &sheet, flaws, count)?;
        }
        let (applied, rows) = self.apply(&held, &sheet, &[], count)?;
        let (state, counters) = (held.rules_state, held.rules_counters);
        Ok(Seen { opening, calls, finish, sheet, applied, rows, state, counters })
    }

    /// The same fragments again, in lists, from a second opening.
    fn in_lists(&self, audit: &Audit, count: &mut Count) -> Result<(), String> {
        let mut held = Held::new(audit.c.marks.len());
        self.open(&mut held, &audit.settings, &[], count)?;
        let mut from = 0;
        for piece in &audit.pieces {
            let calls = &audit.calls[from..piece.until];
            calls.iter().flat_map(|call| &call.changes).for_each(|change| held.set(change));
            let list = LentFragments::of(calls.iter().map(|call| &call.fragment));
            for flaws in &piece.flawed {
                self.lent(flaws, |side| side.list(&mut held.flawed(flaws), &list, piece.entries, flaws, count))?;
            }
            self.list(&mut held, &list, piece.entries, &[], count)?;
            from = piece.until;
        }
        audit.changes.iter().for_each(|change| held.set(change));
        self.finish(&held, &[], count).map(|_| ())
    }
}

/// Everything of an audit: by the index, in lists, plain; the two audits against each other, and the first beside the Rust.
pub fn compare(audit: &Audit, count: &mut Count) -> Result<(), String> {
    let unitigs = harness::theirs::unitigs(&audit.c);
    let t = Targets::new(&audit.c, unitigs.as_deref());
    let by = |way| Side { t: &t, index: &t.index, way };
    let seen = by(Way::Index).singly(audit, count)?;
    count.run(audit, &seen);
    crate::beside::the_rust(audit, &seen, count)?;
    by(Way::Index).in_lists(audit, count)?;
    let plain = by(Way::Plain).singly(audit, count)?;
    crate::beside::the_plain(audit, &t, &seen, &plain, count)
}
