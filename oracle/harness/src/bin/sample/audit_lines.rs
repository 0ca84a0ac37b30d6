//! Whole audits as the commands that `test_audit_calls` reads, and the lines that the Rust's answers to them come to.

use crate::blocks::two;
use harness::audits::{self, Case, Finished, Fragment, Read, Run, Stage, Stop, CANDIDATE_LIMIT};
use harness::theirs::{self, Answer, Mapper, INDETERMINATE};
use harness::Catalogue;
use std::fmt::Write;

/// What the entries and rows of the program hold before a call.
const BEFORE: u64 = 999;

/// The longest seed of the Rust. Its mapper of such seeds compares every shorter read at each start, as the plain audit does.
const LONGEST: usize = 31;

const OPEN: u8 = 2;
const FRAGMENT: u8 = 3;
const FINISH: u8 = 4;
const APPLY: u8 = 5;

/// The targets of a case; commands are to follow.
pub fn targets(c: &Catalogue) -> Vec<u8> {
    let lengths = [c.identifiers.len(), c.identifier_ends.len(), c.bases.len(), c.base_ends.len(), c.marks.len()];
    let numbers = |xs: &[usize]| xs.iter().flat_map(|&x| two(x)).collect::<Vec<u8>>();
    [&numbers(&lengths)[..], &c.identifiers, &numbers(&c.identifier_ends), &c.bases, &numbers(&c.base_ends), &c.marks].concat()
}

/// What fills a block up: targets of nothing but bytes of identifiers, and no command.
pub fn filler(n: usize) -> Vec<u8> {
    let c = Catalogue { identifiers: vec![0; n - LEAST], ..Catalogue::default() };
    targets(&c)
}

pub const LEAST: usize = 10;

/// The answers of the plain audit: the same states and groups, and the work of a mapper that has no use for its index.
/// None where a read is too long for such a mapper.
pub fn plain_answers(case: &Case, answers: &[Vec<Answer>]) -> Option<Vec<Vec<Answer>>> {
    let unitigs = theirs::unitigs(&case.c)?;
    let mapper = Mapper::new(&unitigs, LONGEST);
    let plain = |(read, answer): (&Read, &Answer)| {
        if answer.state < INDETERMINATE {
            return Some(answer.clone());
        }
        let mapper = mapper.as_ref().expect("the Rust opened");
        let (bases, limit) = (read.bases.to_ascii_uppercase(), case.settings.limit);
        let mapped = (bases.len() < LONGEST).then(|| mapper.map(&bases, limit).expect("the Rust mapped it"))?;
        assert!(mapped.state == answer.state && mapped.groups == answer.groups, "two mappers of the Rust differ");
        Some(mapped)
    };
    let fragments = case.fragments.iter().zip(answers);
    fragments.map(|(f, rows)| f.reads.iter().zip(rows).map(plain).collect()).collect()
}

/// What an audit has booked.
struct Books {
    table: [u64; 18],
    totals: [u64; 3],
    indeterminate: bool,
    counters: Vec<[u64; 3]>,
}

fn table(counts: &[[u64; 3]]) -> [u64; 18] {
    let mut table = [0; 18];
    for [role, state, count] in counts {
        table[(6 * role + state) as usize] = *count;
    }
    table
}

fn finished(case: &Case) -> Finished {
    audits::run(case).and_then(|run| run.end.ok()).expect("the Rust finishes a part that it accepts")
}

/// What the Rust shows of the first fragments alone. A read that is indeterminate hides the totals, which go on rising: they
/// are those of a run with an ineligible read for each such one.
fn books(case: &Case, answers: &[Vec<Answer>], n: usize) -> Books {
    let mut part = Case { fragments: case.fragments[..n].to_vec(), ..case.clone() };
    let shown = finished(&part);
    for (f, rows) in part.fragments.iter_mut().zip(answers) {
        for (read, _) in f.reads.iter_mut().zip(rows).filter(|(_, row)| row.state == INDETERMINATE) {
            *read = Read { role: read.role, bases: b"N".to_vec(), qualities: None };
        }
    }
    let open = finished(&part);
    Books {
        table: table(&shown.counts),
        totals: open.run.totals.unwrap_or_default(),
        indeterminate: shown.run.status == CANDIDATE_LIMIT,
        counters: open.targets.iter().map(|t| t.totals.unwrap_or_default()).collect(),
    }
}

/// The commands of a case, and the lines that they are answered by.
#[derive(Default)]
pub struct Script {
    pub commands: Vec<u8>,
    pub lines: String,
}

impl Script {
    fn line(&mut self, word: &str, numbers: impl IntoIterator<Item = u64>) {
        self.lines += word;
        for n in numbers {
            write!(self.lines, " {n}").unwrap();
        }
        self.lines.push('\n');
    }

    fn settings(&mut self, case: &Case) {
        let s = &case.settings;
        self.line("settings", [s.mode.into(), s.remap.into(), s.floor.into(), s.limit]);
    }

    /// The state and the counters behind the first fragments.
    fn left(&mut self, case: &Case, answers: &[Vec<Answer>], n: usize) {
        let books = books(case, answers, n);
        self.settings(case);
        match case.fragments[..n].last() {
            Some(f) => self.line("last", [f.ordinal]),
            None => self.line("last -", []),
        }
        self.line("table", books.table);
        self.line("reads", books.table.chunks(6).map(|role| role.iter().sum()));
        self.line("totals", books.totals.into_iter().chain([books.indeterminate.into()]));
        self.counters(&books.counters);
    }

    fn counters(&mut self, counters: &[[u64; 3]]) {
        for (word, k) in [("placements", 0), ("singles", 1), ("multi", 2)] {
            self.line(word, counters.iter().map(|c| c[k]));
        }
    }

    /// The state that a refused opening gives, and the counters as they were: at zero.
    fn nothing(&mut self, targets: usize) {
        self.line("settings", [0; 4]);
        self.line("last -", []);
        self.line("table", [0; 18]);
        self.line("reads", [0; 3]);
        self.line("totals", [0; 4]);
        self.counters(&vec![[0; 3]; targets]);
    }

    /// A call of one audit, with the counters and the index that belong to it.
    fn call(&mut self, code: u8, lent: &Lent, entries: usize, operands: &[u8]) {
        let byte = |n: usize| u8::try_from(n).expect("a number of one byte");
        let (n, p) = (byte(lent.targets), byte(lent.postings));
        let head = [code, lent.plain.into(), byte(entries), n, n, n, p, p, p];
        self.commands.extend(two(head.len() + operands.len()));
        self.commands.extend(head);
        self.commands.extend(operands);
    }

    /// The whole audit, up to the refusal that ends it. The answers are those of the audit that is lent to.
    pub fn audit(&mut self, case: &Case, run: &Run, answers: &[Vec<Answer>], lent: &Lent) {
        let s = &case.settings;
        self.call(OPEN, lent, 0, &[&[s.mode, s.remap, s.floor][..], &s.limit.to_le_bytes()].concat());
        let stop = run.end.as_ref().err();
        if let Some(Stop { stage: Stage::Opening, refusal, .. }) = stop {
            self.line("refused", [*refusal]);
            return self.nothing(lent.targets);
        }
        self.line("opened", []);
        self.left(case, answers, 0);
        for (i, f) in case.fragments.iter().enumerate() {
            self.call(FRAGMENT, lent, f.entries, &operands(f));
            if let Some(rows) = answers.get(i) {
                for a in rows {
                    self.line("mapped", [a.state, a.groups.len() as u64].into_iter().chain(a.work));
                }
                self.left(case, answers, i + 1);
                self.line("entries", entries(f, rows));
            } else {
                self.line("refused", [stop.expect("an error ended the run").refusal]);
                self.left(case, answers, i);
                return self.line("entries", vec![BEFORE; f.entries]);
            }
        }
        self.finish(case, run.end.as_ref().expect("the run was finished"), lent);
    }

    fn finish(&mut self, case: &Case, shown: &Finished, lent: &Lent) {
        let s = &case.settings;
        self.call(FINISH, lent, 0, &[]);
        self.line("finished", []);
        self.line("sheet", [s.mode.into(), s.remap.into()].into_iter().chain(table(&shown.counts)));
        match shown.run.totals {
            Some(totals) => self.line("run", [shown.run.status].into_iter().chain(totals)),
            None => self.line(&format!("run {} -", shown.run.status), []),
        }
        self.call(APPLY, lent, 4 * lent.targets, &[]);
        self.line("applied", []);
        self.line("rows", shown.targets.iter().flat_map(|t| [t.status].into_iter().chain(t.totals.unwrap_or_default())));
    }
}

/// What is lent to every call of an audit: a row of counters for each target, and the postings.
pub struct Lent {
    pub plain: bool,
    pub targets: usize,
    pub postings: usize,
}

/// Ordinal, number of reads, and the first two of them.
fn operands(f: &Fragment) -> Vec<u8> {
    let mut head = [f.ordinal.to_le_bytes(), (f.reads.len() as u64).to_le_bytes()].concat();
    let mut lists = Vec::new();
    let none = Read::default();
    for k in 0..2 {
        let read = f.reads.get(k).unwrap_or(&none);
        let qualities = read.qualities.as_deref().unwrap_or_default();
        // the last base does not come again
        head.extend([read.role, read.qualities.is_some().into(), 0, 0, read.bases.len() as u8, qualities.len() as u8]);
        lists.extend_from_slice(&read.bases);
        lists.extend_from_slice(qualities);
    }
    head.extend(lists);
    head
}

/// The entries of an accepted fragment: each read's groups from the start of its part on.
fn entries(f: &Fragment, rows: &[Answer]) -> Vec<u64> {
    let mut entries = vec![BEFORE; f.entries];
    let whole = f.entries / 4;
    entries[..4 * whole].fill(0);
    for (i, row) in rows.iter().enumerate() {
        let from = whole / rows.len() * i * 4;
        let groups = row.groups.as_flattened();
        entries[from..from + groups.len()].copy_from_slice(groups);
    }
    entries
}
