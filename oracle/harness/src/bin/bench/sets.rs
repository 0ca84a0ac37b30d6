//! The inputs: targets, and reads to map on them.

use harness::inputs::{turned, Rng};
use harness::{Catalogue, MOST_LIMIT};
use veritasm::indexed_mapper::DEFAULT_SEED_LENGTH;

pub struct Set {
    pub name: &'static str,
    pub c: Catalogue,
    /// The seed length.
    pub q: usize,
    pub reads: Vec<Vec<u8>>,
    pub limit: u64,
    /// Entries lent for each read.
    pub share: usize,
}

fn push(c: &mut Catalogue, bases: &[u8]) {
    let name = format!("unitig_{:06}", c.marks.len());
    c.push(name.as_bytes(), bases, 0);
}

/// A read of 100 bases as it lies on '+' or on '-'.
fn either_strand(i: usize, bases: &[u8]) -> Vec<u8> {
    if i % 2 == 1 {
        bases.to_vec()
    } else {
        turned(bases)
    }
}

/// Reads of 100 bases from targets of one length, of which one in ten is random.
fn reads_of(rng: &mut Rng, c: &Catalogue, length: usize, n: usize) -> Vec<Vec<u8>> {
    let mut read = |i: usize| {
        let at = rng.below(c.marks.len()) * length + rng.below(length - 99);
        match i % 10 {
            0 => rng.bases(100, b"ACGT"),
            _ => either_strand(i, &c.bases[at..at + 100]),
        }
    };
    (0..n).map(&mut read).collect()
}

/// Random targets, each of them so many times.
fn copies(rng: &mut Rng, targets: usize, length: usize, times: usize) -> Catalogue {
    let mut c = Catalogue::default();
    for _ in 0..targets / times {
        let bases = rng.bases(length, b"ACGT");
        (0..times).for_each(|_| push(&mut c, &bases));
    }
    c
}

/// Random targets, and reads from both strands.
pub fn random(rng: &mut Rng, name: &'static str, targets: usize, length: usize, times: usize) -> Set {
    let c = copies(rng, targets, length, times);
    let reads = reads_of(rng, &c, length, 200_000);
    Set { name, c, q: DEFAULT_SEED_LENGTH, reads, limit: MOST_LIMIT, share: 8.max(times) }
}

/// Random targets, and reads that have one wrong base each.
pub fn wrong(rng: &mut Rng) -> Set {
    let mut set = random(rng, "wrong", 1000, 5000, 1);
    for read in &mut set.reads {
        let at = rng.below(read.len());
        let others: Vec<u8> = b"ACGT".iter().copied().filter(|&b| b != read[at]).collect();
        read[at] = *rng.pick(&others);
    }
    set
}

/// Homopolymers, tandem repeats and broken runs. A read of one letter has candidates everywhere: in the homopolymers
/// each matches, in the broken runs none does.
pub fn hostile(rng: &mut Rng, name: &'static str, q: usize) -> Set {
    let (targets, length) = (200, 40_000);
    let mut c = Catalogue::default();
    let mut units = Vec::new();
    for k in 0..targets {
        let bases: Vec<u8> = match k % 4 {
            0 => vec![b'A'; length],
            1 => (0..length).map(|i| if i % 61 == 60 { b'T' } else { b'G' }).collect(),
            _ => {
                let unit = rng.within(2, 7);
                let unit = rng.bases(unit, b"ACGT");
                let bases = unit.iter().copied().cycle().take(length).collect();
                units.push(unit);
                bases
            }
        };
        push(&mut c, &bases);
    }
    let mut reads = Vec::new();
    for i in 0..6000 {
        let unit = rng.pick(&units).clone();
        let phase = rng.below(unit.len());
        reads.push(match i % 20 {
            0 => vec![b'G'; 70],
            k if k < 4 => vec![b'A'; 100],
            k => {
                let read: Vec<u8> = unit.iter().copied().cycle().skip(phase).take(100).collect();
                either_strand(k + 1, &read)
            }
        });
    }
    Set { name, c, q, reads, limit: 1000, share: 1000 }
}

/// Long runs of A with a few other bases, and the longest seed: keys crowd together, so that halving their range parts few of them.
pub fn crowded(rng: &mut Rng) -> Set {
    let (targets, length) = (1000, 5000);
    let mut c = Catalogue::default();
    for _ in 0..targets {
        let bases: Vec<u8> = (0..length).map(|_| if rng.below(12) == 0 { *rng.pick(b"CGT") } else { b'A' }).collect();
        push(&mut c, &bases);
    }
    let mut read = |i: usize| {
        let at = rng.below(targets) * length + rng.below(length - 99);
        either_strand(i + 1, &c.bases[at..at + 100])
    };
    let reads = (0..5_000).map(&mut read).collect();
    Set { name: "crowded", c, q: 31, reads, limit: 1000, share: 1000 }
}

/// Long reads whose offsets cannot be passed over: behind each seed 31 postings agree as far as anyone looks, and the last one does
/// not. Its target has every seed of the others with a wrong base behind it.
pub fn long(rng: &mut Rng) -> Set {
    let q = DEFAULT_SEED_LENGTH;
    let whole = rng.bases(65_535, b"ACGT");
    let mut c = Catalogue::default();
    (0..31).for_each(|_| push(&mut c, &whole));
    let mut last = Vec::new();
    for seed in whole.windows(q + 1) {
        last.extend_from_slice(&seed[..q]);
        let others: Vec<u8> = b"ACGT".iter().copied().filter(|&b| b != seed[q]).collect();
        last.push(*rng.pick(&others));
    }
    push(&mut c, &last);
    let mut read = |i: usize| {
        let at = rng.below(whole.len() - 9_999);
        match i % 6 {
            0 => whole.clone(),
            _ => either_strand(i, &whole[at..at + 10_000]),
        }
    };
    let reads = (0..60).map(&mut read).collect();
    Set { name: "long", c, q, reads, limit: 1000, share: 32 }
}
