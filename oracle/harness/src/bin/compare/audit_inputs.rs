//! The inputs of whole audits: all short ones, the bounds themselves, random ones.

use crate::audit_case::{Audit, Call, Change, Piece};
use crate::audit_flaws as flaws;
use crate::audit_tally::AuditTally;
use crate::map_inputs::{all_reads, several};
use harness::audits::{Fragment, Read, Settings};
use harness::inputs::{self, Rng};
use harness::model_audit::SEED;
use harness::{rules, Catalogue, MOST_LIMIT};

/// One audit of these fragments with nothing wrong: by single calls, in one list, and plain with every other read turned.
fn audit(c: &Catalogue, settings: Settings, fragments: Vec<Fragment>) -> Audit {
    let entries = fragments.iter().map(|f| f.entries).sum();
    let n = fragments.len();
    let call = |(i, fragment): (usize, Fragment)| {
        let turns = [i % 2 == 0, i % 3 == 0];
        Call { plain_entries: fragment.entries, fragment, turns, ..Default::default() }
    };
    Audit {
        c: c.clone(),
        settings,
        flawed_opening: Vec::new(),
        calls: fragments.into_iter().enumerate().map(call).collect(),
        pieces: vec![Piece { until: n, entries, flawed: Vec::new() }],
        changes: Vec::new(),
        flawed_finish: Vec::new(),
        flawed_apply: Vec::new(),
    }
}

fn single(ordinal: u64, bases: &[u8], qualities: Option<&[u8]>, entries: usize) -> Fragment {
    let read = Read { role: 0, bases: bases.to_vec(), qualities: qualities.map(<[u8]>::to_vec) };
    Fragment { ordinal, reads: vec![read], entries: 4 * entries }
}

fn pair(ordinal: u64, first: &[u8], second: &[u8], entries: usize) -> Fragment {
    let read = |role: u8, bases: &[u8]| Read { role, bases: bases.to_vec(), qualities: None };
    Fragment { ordinal, reads: vec![read(1, first), read(2, second)], entries: 4 * entries }
}

fn on(mode: u8, floor: u8, limit: u64) -> Settings {
    Settings { mode, remap: 1, floor, limit }
}

// ---- all short ones

/// Two tiny targets: every read and pair of reads up to 3 bases, and every short quality string around the floors.
pub fn exhaustive(tally: &mut AuditTally) {
    let mut reads = all_reads(3);
    reads.push(Vec::new());
    let catalogues = [
        several(&[("b", "ACGT", 0), ("a", "CGC", 0)]),
        several(&[("t1", "ACGT", 0), ("b", "AAAA", 1)]),
        several(&[("p", "AA", 0), ("q", "TTT", 0)]),
    ];
    for c in &catalogues {
        for a in &reads {
            for limit in [1, 2, 10] {
                tally.run(audit(c, on(0, 0, limit), vec![single(0, a, None, 3)]));
            }
            tally.run(audit(c, Settings { mode: 0, remap: 0, floor: 0, limit: 1 }, vec![single(0, a, None, 1)]));
            let others = [a.to_ascii_lowercase(), [a.as_slice(), b"N"].concat(), [b"n", a.as_slice()].concat()];
            let list = others.iter().zip(0..).map(|(bases, i)| single(i, bases, None, 8));
            tally.run(audit(c, on(0, 0, 4), list.collect()));
            for b in &reads {
                tally.run(audit(c, on(1, 0, 2), vec![pair(7, a, b, 5)]));
            }
        }
    }
    let mut strings: Vec<Vec<u8>> = vec![Vec::new()];
    let mut last = strings.clone();
    for _ in 0..3 {
        last = last.iter().flat_map(|s| [32, 33, 52, 53, 126, 127].map(|q| [s.as_slice(), &[q]].concat())).collect();
        strings.extend(last.iter().cloned());
    }
    for string in &strings {
        for floor in [0, 20, 93, 94] {
            for bases in [&b""[..], b"A", b"ac", b"ACN", b"CGT"] {
                tally.run(audit(&catalogues[0], on(0, floor, 10), vec![single(1, bases, Some(string), 8)]));
            }
        }
    }
}

// ---- at the bounds

pub fn bounds(tally: &mut AuditTally, rng: &mut Rng) {
    // reads of 65,535 bases and one more
    let long = rng.bases(70_000, b"ACGT");
    let c = several(&[("u", std::str::from_utf8(&long).unwrap(), 0), ("v", "ACGTACGTACGTACGTACGT", 0)]);
    let reads = [65_535, 65_536, 65_537].map(|n| long[10..10 + n].to_vec());
    for remap in [1, 0] {
        let settings = Settings { remap, ..on(0, 0, 3) };
        let list = reads.iter().zip(0..).map(|(bases, i)| single(i, bases, None, 3));
        tally.run(audit(&c, settings, list.collect()));
        let settings = Settings { remap, ..on(1, 0, 3) };
        let list = [
            pair(0, &reads[0], &reads[1], 4),
            pair(0, &reads[1], b"", 4),
            pair(0, b"", &reads[1], 4),
            pair(0, &reads[0], b"acgtacgtacgtacg", 6),
        ];
        tally.run(audit(&c, settings, list.to_vec()));
    }
    // 4,096 targets, and one more
    let mut c = Catalogue::default();
    for k in 0..4097usize {
        c.push(&k.to_be_bytes()[6..], &long[k * 10..k * 10 + 20], u8::from(k % 50 == 49));
        if k >= 4095 {
            let list = [single(3, &long[100..116], None, 8), single(4, &long[5..12], None, 900), single(4, b"A", None, 9)];
            tally.run(audit(&c, on(0, 0, 800), list.to_vec()));
        }
    }
}

// ---- random ones

fn near(rng: &mut Rng, n: u64) -> u64 {
    (n + rng.below(3) as u64).saturating_sub(1)
}

/// Letters in lower case, and bytes that are no letters of ACGT.
fn disguise(rng: &mut Rng, bases: &mut [u8]) {
    if bases.is_empty() {
        return;
    }
    match rng.below(8) {
        0 => bases.make_ascii_lowercase(),
        1 => {
            let n = rng.below(bases.len());
            bases[n..].make_ascii_lowercase();
        }
        2 => {
            let i = rng.below(bases.len());
            bases[i] = *rng.pick(b"Nn@BDHUu\0\xff -[`{");
        }
        _ => {}
    }
}

fn qualities(rng: &mut Rng, n: usize, floor: u8) -> Option<Vec<u8>> {
    let edge = floor.min(93) + 33;
    let mut string: Vec<u8> = match rng.below(6) {
        0 | 1 => return None,
        2 => vec![edge; n],
        3 => (0..n).map(|_| rng.within(edge.into(), 126) as u8).collect(),
        _ => (0..n).map(|_| *rng.pick(&[edge, 126, edge.min(125) + 1])).collect(),
    };
    for _ in 0..rng.below(3) {
        if !string.is_empty() && rng.one_in(3) {
            let i = rng.below(n);
            string[i] = *rng.pick(&[edge - 1, edge - 1, 33, 32, 127, 126, 0, 255]);
        }
    }
    match rng.below(30) {
        0 => string.clear(),
        1 => string.push(edge),
        2 => drop(string.pop()),
        _ => {}
    }
    Some(string)
}

fn read(rng: &mut Rng, c: &Catalogue, role: u8, floor: u8) -> Read {
    let mut bases = match rng.below(60) {
        0 => Vec::new(),
        1 if rng.one_in(12) => vec![*rng.pick(b"AN"); *rng.pick(&[65_535, 65_536, 65_540])],
        _ if rules::plan_refusal(c, SEED) != 0 => rng.bases(6, b"ACGT"),
        _ => inputs::read(rng, c, SEED),
    };
    disguise(rng, &mut bases);
    let qualities = qualities(rng, bases.len(), floor);
    Read { role, bases, qualities }
}

/// Right roles for the mode, or others, and another number of reads.
fn roles(rng: &mut Rng, mode: u8) -> Vec<u8> {
    let mut roles: Vec<u8> = if mode == 0 { vec![0] } else { vec![1, 2] };
    match rng.below(40) {
        0 => roles.reverse(),
        1 => drop(roles.pop()),
        2 => roles.push(rng.below(3) as u8),
        3 => roles = (0..rng.below(4)).map(|_| rng.below(3) as u8).collect(),
        4 => roles = vec![rng.below(3) as u8; roles.len()],
        5 if !roles.is_empty() => roles[0] = *rng.pick(&[3, 255, 2]),
        _ => {}
    }
    roles
}

fn ordinal(rng: &mut Rng, last: u64) -> u64 {
    match rng.below(40) {
        0 => last,
        1 => last.saturating_sub(1),
        2 => 0,
        3 if rng.one_in(3) => *rng.pick(&[u64::MAX, u64::MAX - 1]),
        4 if rng.one_in(3) => rng.next(),
        _ => last.saturating_add(rng.within(1, 3) as u64),
    }
}

/// The number of a read's matches, if the targets are right.
fn matches(c: &Catalogue, read: &Read) -> u64 {
    let upper = read.bases.to_ascii_uppercase();
    if upper.is_empty() || upper.len() > 200 {
        return 0;
    }
    let back = inputs::turned(&upper);
    let Some(targets) = c.targets() else { return 0 };
    let linear = targets.iter().filter(|t| t.2 == 0);
    let windows = linear.flat_map(|t| t.1.windows(upper.len()));
    windows.map(|w| u64::from(w == upper) + u64::from(w == back)).sum()
}

/// Numbers of entries around what the reads need.
fn entries(rng: &mut Rng, mode: u8, most: u64, limit: u64) -> usize {
    let each = match rng.below(6) {
        0 => 0,
        1 => near(rng, limit.min(200)),
        2 => most + 20,
        3 => most,
        _ => near(rng, most),
    } as usize;
    let parts = if mode == 0 { 1 } else { 2 };
    4 * (parts * each + usize::from(parts == 2 && rng.one_in(3))) + if rng.one_in(3) { rng.below(4) } else { 0 }
}

fn settings(rng: &mut Rng) -> Settings {
    let floor = *rng.pick(&[0, 0, 0, 1, 20, 20, 92, 93]);
    let limit = *rng.pick(&[1, 2, 3, 4, 6, 10, 25, 100, MOST_LIMIT, MOST_LIMIT]);
    let mut settings = Settings { mode: rng.below(2) as u8, remap: u8::from(!rng.one_in(9)), floor, limit };
    match rng.below(120) {
        0 => settings.floor = *rng.pick(&[94, 95, 255]),
        1 => settings.limit = *rng.pick(&[0, MOST_LIMIT + 1, u64::MAX]),
        2 => {
            settings.floor = *rng.pick(&[93, 94]);
            settings.limit = *rng.pick(&[0, 1, MOST_LIMIT, MOST_LIMIT + 1]);
        }
        _ => {}
    }
    settings
}

fn catalogue(rng: &mut Rng) -> Catalogue {
    let mut c = inputs::catalogue(rng, SEED);
    while c.bases.len() > 700 {
        c = inputs::catalogue(rng, SEED);
    }
    if rng.one_in(25) {
        (0..rng.within(1, 2)).for_each(|_| inputs::damage(rng, &mut c));
    }
    c
}

/// Numbers near the last that a count can have, in places that agree with each other or not.
fn full(rng: &mut Rng, c: &Catalogue, mode: u8) -> Vec<Change> {
    let n = u64::MAX - rng.below(4) as u64;
    let target = if c.marks.is_empty() { 0 } else { rng.below(c.marks.len()) };
    let column = rng.below(3);
    let role = if mode == 0 { 0 } else { rng.within(1, 2) };
    let (cell, reads) = (Change::State(7 + 6 * role + rng.below(6), n), Change::State(25 + role, n));
    let (total, counter) = (Change::State(28 + column, n), Change::Counter(column, target, n));
    match rng.below(8) {
        0 => vec![cell],
        1 => vec![reads],
        2 => vec![total],
        3 => vec![counter],
        4 | 5 => vec![cell, reads],
        _ => vec![total, counter],
    }
}

pub fn random(tally: &mut AuditTally, rng: &mut Rng) {
    let c = catalogue(rng);
    let mut settings = settings(rng);
    let n = match rng.below(10) {
        0 => rng.within(8, 30),
        1 => 0,
        _ => rng.within(1, 6),
    };
    let mut last = *rng.pick(&[0, 0, 5, u64::MAX - 4]);
    let mut fragments = Vec::new();
    let mut counts = Vec::new();
    for i in 0..n {
        let ordinal = if i == 0 { last } else { ordinal(rng, last) };
        let reads: Vec<Read> = roles(rng, settings.mode).into_iter().map(|role| read(rng, &c, role, settings.floor)).collect();
        counts.push(reads.iter().map(|read| matches(&c, read)).max().unwrap_or(0));
        fragments.push(Fragment { ordinal, reads, entries: 0 });
        last = last.max(ordinal);
    }
    if !counts.is_empty() && settings.limit > 0 && rng.one_in(2) {
        let n = *rng.pick(&counts);
        settings.limit = near(rng, n).max(1);
    }
    let mut a = audit(&c, settings, fragments);
    for (call, &most) in a.calls.iter_mut().zip(&counts) {
        let lent = |rng: &mut Rng| if rng.one_in(4) { entries(rng, settings.mode, most, settings.limit) } else { ample(rng, most) };
        call.fragment.entries = lent(rng);
        call.plain_entries = if rng.one_in(2) { call.fragment.entries } else { lent(rng) };
        call.turns = [rng.one_in(2), rng.one_in(2)];
    }
    if n > 0 && rng.one_in(12) {
        for _ in 0..rng.within(1, 2) {
            let at = rng.below(n + 1);
            let changes = full(rng, &c, settings.mode);
            a.calls.get_mut(at).map_or(&mut a.changes, |call| &mut call.changes).extend(changes);
        }
    }
    a.pieces = pieces(rng, &a, counts.iter().copied().max().unwrap_or(0));
    if rng.one_in(3) {
        flaws::add(rng, &mut a);
    }
    tally.run(a);
}

/// As many entries as are needed, or some more.
fn ample(rng: &mut Rng, most: u64) -> usize {
    4 * 2 * (most as usize + rng.below(3)) + rng.below(5)
}

/// The calls cut in lists, empty ones among them.
fn pieces(rng: &mut Rng, a: &Audit, most: u64) -> Vec<Piece> {
    let n = a.calls.len();
    let mut ends: Vec<usize> = (0..rng.below(3)).map(|_| rng.below(n + 1)).collect();
    ends.push(n);
    ends.sort_unstable();
    let mut from = 0;
    let mut pieces = Vec::new();
    for until in ends {
        let each = if rng.one_in(4) { entries(rng, a.settings.mode, most, a.settings.limit) } else { ample(rng, most) };
        let entries = (until - from) * each + rng.below(12);
        pieces.push(Piece { until, entries, flawed: Vec::new() });
        from = until;
    }
    pieces
}
