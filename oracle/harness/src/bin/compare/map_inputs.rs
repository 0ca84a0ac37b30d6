//! The inputs of the mapper: all short ones, the bounds themselves, random ones.

use crate::maps::{prepared, Call, Prepared, Tally};
use harness::inputs::{self, Rng};
use harness::{Catalogue, Columns, MOST_LIMIT};

pub fn all_reads(most: usize) -> Vec<Vec<u8>> {
    let mut all: Vec<Vec<u8>> = Vec::new();
    let mut last = vec![Vec::new()];
    for _ in 0..most {
        last = last.iter().flat_map(|r: &Vec<u8>| b"ACGT".map(|b| [r.as_slice(), &[b]].concat())).collect();
        all.extend(last.iter().cloned());
    }
    all
}

fn one(bases: &[u8]) -> Catalogue {
    let mut c = Catalogue::default();
    c.push(b"t", bases, 0);
    c
}

pub fn several(targets: &[(&str, &str, u8)]) -> Catalogue {
    let mut c = Catalogue::default();
    for (name, bases, mark) in targets {
        c.push(name.as_bytes(), bases.as_bytes(), *mark);
    }
    c
}

/// Every short read over tiny catalogues, seeds of 1 to 4 bases.
pub fn exhaustive(tally: &mut Tally) {
    let mut over = |c: &Catalogue, reads: &[Vec<u8>], limits: &[u64]| {
        for q in 1..=4 {
            prepared(c, q, |p| {
                let n = p.index[0].len();
                tally.run(p, Call::Plan { answer: 3 });
                tally.run(p, Call::Build { answer: 2, room: [n; 3] });
                tally.run(p, Call::Index);
                tally.run(p, Call::Check { columns: None });
                for read in reads {
                    for &limit in limits {
                        tally.run(p, Call::Map { answer: 8, entries: 64, columns: None, read: read.clone(), limit });
                    }
                }
            });
        }
    };
    let (four, five) = (all_reads(4), all_reads(5));
    for target in all_reads(3) {
        over(&one(&target), &four, &[1, MOST_LIMIT]);
    }
    for c in [
        several(&[]),
        several(&[("b", "AAAA", 1)]),
        several(&[("b", "ACGTACGT", 0)]),
        several(&[("b", "AAAAA", 0), ("a", "TTTT", 0)]),
        several(&[("b", "ACGT", 0), ("", "CG", 0), ("bb", "ACGT", 1)]),
        several(&[("aa", "ACACA", 0), ("a", "TGTGT", 0), ("ab", "GTGAC", 0)]),
        several(&[("z", "C", 0), ("y", "G", 0), ("x", "A", 1), ("w", "T", 0)]),
        several(&[("p", "AATT", 0), ("q", "AATTAATT", 0)]),
    ] {
        over(&c, &five, &[2, MOST_LIMIT]);
    }
}

pub fn near(rng: &mut Rng, n: usize) -> usize {
    (n + rng.below(3)).saturating_sub(1)
}

pub fn random(tally: &mut Tally, rng: &mut Rng) {
    let mut q = inputs::seed_length(rng);
    let mut c = inputs::catalogue(rng, q);
    let wrong = rng.one_in(5);
    if wrong {
        for _ in 0..rng.below(3) {
            inputs::damage(rng, &mut c);
        }
        if rng.one_in(3) {
            q = *rng.pick(&[0, 32, 33, 64, usize::MAX]);
        }
    }
    prepared(&c, q, |p| {
        let n = p.index[0].len();
        let most = if rng.one_in(3) { 4 } else { 0 };
        let answer = if rng.one_in(6) { rng.below(4) } else { 3 + most };
        tally.run(p, Call::Plan { answer });
        let room = if rng.one_in(3) { [near(rng, n), near(rng, n), near(rng, n)] } else { [n + most, n, n + 1] };
        let answer = if rng.one_in(12) { rng.below(3) } else { 2 + most };
        tally.run(p, Call::Build { answer, room });
        if p.refusal == 0 {
            tally.run(p, Call::Index);
        }
        tally.run(p, Call::Check { columns: None });
        let mut columns = p.index.clone();
        inputs::damage_index(rng, &mut columns);
        let columns = Some(columns);
        tally.run(p, Call::Check { columns: columns.clone() });
        let rounds = if p.refusal == 0 { rng.within(8, 30) } else { 3 };
        let mut reads = Vec::new();
        for _ in 0..rounds {
            let read = if p.refusal == 0 { inputs::read(rng, &c, q) } else { rng.bases(5, b"ACGT") };
            random_map(tally, rng, p, &read, &columns);
            reads.push(read);
        }
        random_many(tally, rng, p, &reads, &columns);
    });
}

fn random_map(tally: &mut Tally, rng: &mut Rng, p: &Prepared, read: &[u8], damaged: &Option<Columns>) {
    let all = p.mapper().map(|m| m.map(read, MOST_LIMIT).expect("a proper read is mapped"));
    let matches = all.as_ref().map_or(0, |a| a.groups.len());
    let limits = [1, matches as u64, matches.saturating_sub(1) as u64, matches as u64 + 1, MOST_LIMIT, rng.within(1, 9) as u64];
    for _ in 0..2 {
        let mut limit = (*rng.pick(&limits)).max(1);
        let room = [
            matches,
            matches,
            matches + 1,
            matches.saturating_sub(1),
            limit.min(500) as usize,
            (limit.min(500) - 1) as usize,
            0,
            matches + 3,
        ];
        let entries = 4 * *rng.pick(&room) + rng.below(4);
        let answer = if rng.one_in(40) { rng.below(8) } else { rng.within(8, 9) };
        let columns = if rng.one_in(25) { damaged.clone() } else { None };
        let mut read = read.to_vec();
        if rng.one_in(25) {
            read = inputs::bad_read(rng, &read);
        }
        if rng.one_in(25) {
            limit = *rng.pick(&[0, MOST_LIMIT + 1, u64::MAX]);
        }
        if p.refusal == 0 {
            let l = limit as usize;
            tally.count("read shorter than a seed", read.len() < p.q);
            tally.count("read of a seed's length", read.len() == p.q);
            tally.count("limit one below the matches", l + 1 == matches);
            tally.count("limit equal to the matches", l == matches);
            tally.count("limit one above the matches", l == matches + 1);
            tally.count("limit 1", l == 1);
            tally.count("limit 10,000,000", limit == MOST_LIMIT);
            tally.count("entries equal to the matches", entries / 4 == matches);
            tally.count("entries one below the matches", entries / 4 + 1 == matches);
            tally.count("catalogue without a linear target", p.linear.is_empty());
            tally.count("catalogue with a closed walk", p.c.marks.contains(&1));
            tally.count("read of both strands alike", read == inputs::turned(&read));
        }
        tally.run(p, Call::Map { answer, entries, columns, read, limit });
    }
}

fn random_many(tally: &mut Tally, rng: &mut Rng, p: &Prepared, all: &[Vec<u8>], damaged: &Option<Columns>) {
    let mut reads = Vec::new();
    let mut ends = Vec::new();
    for read in all {
        let read = if rng.one_in(25) { inputs::bad_read(rng, read) } else { read.clone() };
        reads.extend(read);
        ends.push(reads.len());
    }
    let share = rng.below(12);
    let mut rows = 8 * ends.len();
    let entries = 4 * (share * ends.len() + rng.below(ends.len())) + rng.below(4);
    let columns = if rng.one_in(12) { damaged.clone() } else { None };
    let mut limit = *rng.pick(&[1, 2, 5, 12, MOST_LIMIT]);
    match rng.below(25) {
        0 => limit = *rng.pick(&[0, MOST_LIMIT + 1, u64::MAX]),
        1 => rows = *rng.pick(&[rows - 1, rows + 1, rows - 8, rows + 8, 0]),
        2 => *ends.last_mut().unwrap() = *rng.pick(&[reads.len() + 1, usize::MAX]),
        3 if ends.len() > 1 => {
            let i = rng.below(ends.len() - 1);
            ends[i] = ends[i + 1] + 1;
        }
        _ => {}
    }
    tally.run(p, Call::Many { rows, entries, columns, reads, ends, limit });
}

/// At the bounds themselves.
pub fn bounds(tally: &mut Tally, rng: &mut Rng) {
    let map =
        |read: &[u8], limit: u64, entries: usize| Call::Map { answer: 8, entries: 4 * entries, columns: None, read: read.to_vec(), limit };

    // 4,096 targets, identifiers of 255 bytes with a long prefix in common, 16,777,216 bases in all
    let mut c = Catalogue::default();
    let base = rng.bases(4096, b"ACGT");
    for k in 0..4096 {
        let mut name = vec![b'n'; 255];
        name[251..].copy_from_slice(format!("{:04}", (k * 2741) % 4096).as_bytes());
        let mut bases = rng.bases(4096, b"ACGT");
        if k % 512 == 0 {
            bases.copy_from_slice(&base);
        }
        c.push(&name, &bases, u8::from(k % 100 == 99));
    }
    prepared(&c, 15, |p| {
        let n = p.index[0].len();
        tally.run(p, Call::Plan { answer: 3 });
        tally.run(p, Call::Build { answer: 2, room: [n; 3] });
        tally.run(p, Call::Build { answer: 2, room: [n, n, n - 1] });
        tally.run(p, map(&base[1000..1100], MOST_LIMIT, 20));
        tally.run(p, map(&inputs::turned(&base), 8, 8));
        tally.run(p, map(&base, 7, 7));
        tally.run(p, map(b"ACGTACGTAC", MOST_LIMIT, 100));
    });
    for (more, identifier) in [(1, 0), (0, 1)] {
        // one base too many, and one byte of identifier
        let mut c = c.clone();
        c.bases.extend_from_slice(&b"A"[..more]);
        *c.base_ends.last_mut().unwrap() += more;
        c.identifiers.extend_from_slice(&b"z"[..identifier]);
        *c.identifier_ends.last_mut().unwrap() += identifier;
        prepared(&c, 31, |p| tally.run(p, Call::Plan { answer: 3 }));
    }
    c.bases.push(b'x');
    prepared(&c, 31, |p| tally.run(p, Call::Plan { answer: 3 }));
    drop(c);

    // 4,096 targets, and one more
    let mut c = Catalogue::default();
    for k in 0..4097usize {
        c.push(&k.to_be_bytes()[6..], &base[k % 4000..k % 4000 + 40], 0);
        if k >= 4095 {
            prepared(&c, 31, |p| {
                let n = p.index[0].len();
                tally.run(p, Call::Plan { answer: 3 });
                tally.run(p, Call::Build { answer: 2, room: [n; 3] });
                tally.run(p, map(&base[..33], 10, 10));
                tally.run(p, map(&base[..20], MOST_LIMIT, 10));
            });
        }
    }

    // reads of 65,535 bases and one more
    let long = rng.bases(70_000, b"ACGT");
    let mut c = one(&long);
    c.push(b"u", &long[10..65_545], 0);
    c.push(b"v", &long[10..65_544], 0);
    c.push(b"w", &[b'A'; 65_545], 0);
    prepared(&c, 31, |p| {
        for n in [65_534, 65_535, 65_536] {
            tally.run(p, map(&long[10..10 + n], 10, 10));
            tally.run(p, map(&inputs::turned(&long[10..10 + n]), MOST_LIMIT, 3));
            tally.run(p, map(&vec![b'A'; n], MOST_LIMIT, 20));
        }
    });

    // 10,000,000 matches under the limit 10,000,000, and one more
    for more in [0, 1] {
        let c = one(&vec![b'C'; 10_000_030 + more]);
        prepared(&c, 31, |p| {
            let n = p.index[0].len();
            tally.run(p, Call::Build { answer: 2, room: [n; 3] });
            tally.run(p, map(&[b'C'; 31], MOST_LIMIT, MOST_LIMIT as usize));
            tally.run(p, map(&[b'G'; 31], MOST_LIMIT, 9_999_999));
        });
    }
}
