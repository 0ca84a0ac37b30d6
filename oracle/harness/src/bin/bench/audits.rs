//! Whole audits: many fragments in one call, beside the Rust's accumulator on the same fragments in memory.
//!
//! Of ours `jekaumeo_fragments` is timed, which tests targets and index once; of the Rust `audit_fragment` of each fragment. Openings
//! are not timed on either side: ours is lent an index, the Rust builds its own. Nothing is freed within a time.

use crate::{median, print, timed};
use harness::audits::{self, Finished, Fragment, Read, Settings};
use harness::inputs::{turned, Rng};
use harness::lent::LentFragments;
use harness::model_audit::{ROW_NUMBERS, SEED, SHEET_NUMBERS, STATE_NUMBERS};
use harness::theirs::{self, Answer, Mapper};
use harness::{ours, ours_audit, Catalogue, Columns, MOST_LIMIT};
use std::hint::black_box;
use veritasm::audit::AuditAccumulator;
use veritasm::model;

/// Entries lent for each read.
const SHARE: usize = 8;
const LENGTH: usize = 100;
const FLOOR: u8 = 20;

/// A read of 100 bases from either strand, one in ten random; one in fifty has a quality below the floor.
fn read(rng: &mut Rng, c: &Catalogue, length: usize, role: u8) -> Read {
    let at = rng.below(c.marks.len()) * length + rng.below(length - LENGTH + 1);
    let bases = match rng.below(10) {
        0 => rng.bases(LENGTH, b"ACGT"),
        k if k % 2 == 1 => c.bases[at..at + LENGTH].to_vec(),
        _ => turned(&c.bases[at..at + LENGTH]),
    };
    let mut qualities: Vec<u8> = (0..LENGTH).map(|_| rng.within(33 + FLOOR as usize, 126) as u8).collect();
    if rng.one_in(50) {
        qualities[rng.below(LENGTH)] = 33 + FLOOR - 1;
    }
    Read { role, bases, qualities: Some(qualities) }
}

fn fragments(rng: &mut Rng, c: &Catalogue, length: usize, roles: &[u8], n: u64) -> Vec<Fragment> {
    let entries = 4 * SHARE * roles.len();
    let mut fragment = |ordinal| Fragment { ordinal, reads: roles.iter().map(|&role| read(rng, c, length, role)).collect(), entries };
    (0..n).map(&mut fragment).collect()
}

/// Our side of an audit: state, counters, rows and entries.
struct Ours<'a> {
    c: &'a Catalogue,
    index: &'a Columns,
    settings: Settings,
    state: Vec<u64>,
    counters: [Vec<u64>; 3],
    rows: Vec<u64>,
    entries: Vec<u64>,
}

impl<'a> Ours<'a> {
    fn new(c: &'a Catalogue, index: &'a Columns, settings: Settings, reads: usize) -> Self {
        let n = c.marks.len();
        let (rows, entries) = (vec![7; ROW_NUMBERS * reads], vec![7; 4 * SHARE * reads]);
        Self { c, index, settings, state: vec![7; STATE_NUMBERS], counters: [0; 3].map(|_| vec![7; n]), rows, entries }
    }

    fn open(&mut self) -> u64 {
        let counters = self.counters.each_mut().map(Vec::as_mut_slice);
        ours_audit::open(&mut self.state, counters, Some(self.index), self.c, &self.settings)
    }

    fn fragments(&mut self, l: &LentFragments) -> u64 {
        let counters = self.counters.each_mut().map(Vec::as_mut_slice);
        let rows = &mut self.rows[..ROW_NUMBERS * l.roles.len()];
        ours_audit::fragments(rows, &mut self.state, &mut self.entries, counters, self.index, self.c, l)
    }

    /// How many reads have the Rust's answer, and the numbers of states.
    fn answered(&self, theirs: &[Answer]) -> (usize, [usize; 6]) {
        let (mut equal, mut states) = (0, [0; 6]);
        for (i, answer) in theirs.iter().enumerate() {
            let row = &self.rows[ROW_NUMBERS * i..][..ROW_NUMBERS];
            let (listed, rest) = self.entries[4 * SHARE * i..][..4 * SHARE].split_at(4 * row[2] as usize);
            let groups = listed.as_chunks::<4>().0.to_vec();
            let ours = Answer { state: row[1], groups, work: row[3..].try_into().unwrap() };
            equal += usize::from(row[0] == 0 && ours == *answer && rest.iter().all(|&n| n == 0));
            states[answer.state as usize] += 1;
        }
        (equal, states)
    }

    /// Whether sheet and targets are the Rust's.
    fn finished(&self, theirs: &Finished) -> bool {
        let counters = self.counters.each_ref().map(Vec::as_slice);
        let mut sheet = vec![7; SHEET_NUMBERS];
        let mut rows = vec![7; 4 * self.c.marks.len()];
        let finish = ours_audit::finish(&mut sheet, counters, Some(self.index), self.c, &self.state);
        let apply = ours_audit::apply_to_unitigs(&mut rows, counters, self.c, self.c, &sheet);
        let counted = theirs.counts.iter().all(|x| sheet[(3 + 6 * x[0] + x[1]) as usize] == x[2]);
        let shown = |row: &[u64], x: &audits::Shown| row[0] == x.status && row[1..4] == x.totals.unwrap_or([0; 3]);
        let targets = rows.chunks(4).zip(&theirs.targets).all(|(row, x)| shown(row, x));
        finish == 0 && apply == 0 && counted && shown(&sheet[21..], &theirs.run) && targets
    }
}

/// Three times both, one after the other; whether all answers were equal.
fn run_list(what: &str, c: &Catalogue, index: &Columns, settings: Settings, fragments: Vec<Fragment>) -> bool {
    let unitigs = theirs::unitigs(c).expect("a right catalogue");
    let list = LentFragments::of(fragments.iter());
    let given: Vec<model::Fragment> = fragments.iter().map(|f| audits::fragment(f).expect("roles that it has")).collect();
    let mut ours = Ours::new(c, index, settings, list.roles.len());
    let (mut a, mut b, mut tests) = (Vec::new(), Vec::new(), Vec::new());
    let mut same = true;
    let mut last = None;
    for _ in 0..3 {
        same &= ours.open() == 0;
        same &= timed(&mut tests, || ours.fragments(&LentFragments::default())) == 0;
        same &= timed(&mut a, || ours.fragments(&list)) == 0;
        let config = audits::config(&settings).expect("settings that it has");
        let mut audit = AuditAccumulator::new(&unitigs, config).expect("the Rust opens");
        let answers: Vec<_> = timed(&mut b, || given.iter().map(|f| black_box(audit.audit_fragment(f))).collect());
        last = Some((answers, audit.finish().expect("the Rust finishes")));
    }
    let reads = list.roles.len();
    print(what, &mut a, &mut b, Some(reads));
    println!("            of it the tests made once {:.3} s", median(&mut tests));
    let (answers, finalized) = last.expect("three rounds");
    let mapper = Mapper::new(&unitigs, SEED).expect("the Rust builds");
    let rows = answers.into_iter().flat_map(|rows| rows.expect("the Rust audits")).zip(fragments.iter().flat_map(|f| &f.reads));
    let theirs: Vec<Answer> = rows.map(|(row, read)| audits::answer(&row, &read.bases, Some(&mapper), settings.limit)).collect();
    let (equal, states) = ours.answered(&theirs);
    let finished = ours.finished(&audits::finished(&finalized, unitigs.clone()));
    println!(
        "  answers equal: {equal} of {reads}, sheet and targets {}; ineligible {}, indeterminate {}, unmapped {}, single {}, multiple {}",
        if finished { "equal" } else { "DIFFERENT" },
        states[1],
        states[2],
        states[3],
        states[4],
        states[5]
    );
    same && finished && equal == reads
}

fn run_targets(rng: &mut Rng, targets: usize, length: usize) -> bool {
    let mut c = Catalogue::default();
    for k in 0..targets {
        let bases = rng.bases(length, b"ACGT");
        c.push(format!("unitig_{k:06}").as_bytes(), &bases, 0);
    }
    println!("audits: {targets} targets, {} bases, reads of {LENGTH} bases, floor {FLOOR}, limit {MOST_LIMIT}", c.bases.len());
    let mut index: Columns = [0; 3].map(|_| vec![7; targets * (length - SEED + 1)]);
    let [keys, ranks, positions] = &mut index;
    let mut same = ours::build(&mut [0; 2], [keys, ranks, positions], &c, SEED) == 0;
    for (what, mode, roles, n) in [("single", 0, &[0][..], 200_000), ("pairs", 1, &[1, 2], 100_000)] {
        let settings = Settings { mode, remap: 1, floor: FLOOR, limit: MOST_LIMIT };
        let fragments = fragments(rng, &c, length, roles, n);
        same &= run_list(what, &c, &index, settings, fragments);
    }
    same
}

/// 200,000 single reads and 100,000 pairs over 5 and over 16.8 million bases; whether all answers were equal.
pub fn run(rng: &mut Rng) -> bool {
    run_targets(rng, 1000, 5000) & run_targets(rng, 1024, 16_384)
}
