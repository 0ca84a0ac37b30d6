//! The index built and all reads mapped, on both sides.
//!
//! Both work in fresh memory: our columns, rows and entries are allocated within the time, as the Rust allocates its own.
//! Nothing is freed within a time, but for the Rust's answer to a read before its next one. Nothing is loaded or written.

use crate::sets::Set;
use crate::{bowtie, print, timed};
use harness::theirs::{self, Mapper, INDETERMINATE};
use harness::{ours, rules, Columns};
use std::hint::black_box;
use veritasm::indexed_mapper::IndexedExactMapper;

/// Three times both, one after the other; whether all answers were equal, and those of bowtie where it is wanted.
pub fn run(set: &Set, beside_bowtie: bool) -> bool {
    let Set { name, c, q, reads, limit, share } = set;
    let q = *q;
    let n = c.marks.len();
    println!("{name}: {n} targets, {} bases, {} reads, seed {q}, limit {limit}", c.bases.len(), reads.len());
    let unitigs = theirs::unitigs(c).expect("a right catalogue");
    let expected = rules::index(c, q);
    let postings = expected[0].len();
    let mut columns: Columns = Default::default();
    let (mut a, mut b) = (Vec::new(), Vec::new());
    let mut same = true;
    for _ in 0..3 {
        let mut answer = [0; 2];
        columns = timed(&mut a, || {
            let mut fresh: Columns = [0; 3].map(|_| vec![0; postings]);
            let [keys, ranks, positions] = &mut fresh;
            ours::build(&mut answer, [keys, ranks, positions], c, q);
            fresh
        });
        let mapper = timed(&mut b, || IndexedExactMapper::new(&unitigs, theirs::config(q))).expect("the Rust builds");
        same &= answer == [0, postings as u64] && columns == expected && mapper.posting_count() == postings;
    }
    drop(expected);
    print("building", &mut a, &mut b, None);
    if !same {
        println!("  the indexes differ");
    }

    let mapper = Mapper::new(&unitigs, q).expect("the Rust builds");
    let bytes = reads.concat();
    let ends: Vec<usize> = reads
        .iter()
        .scan(0, |end, r| {
            *end += r.len();
            Some(*end)
        })
        .collect();
    let (mut rows, mut entries) = (Vec::new(), Vec::new());
    let (mut a, mut b) = (Vec::new(), Vec::new());
    for _ in 0..3 {
        let refusal;
        (rows, entries, refusal) = timed(&mut a, || {
            let (mut rows, mut entries) = (vec![0; 8 * reads.len()], vec![0; 4 * share * reads.len()]);
            let refusal = ours::map_reads(&mut rows, &mut entries, &columns, c, q, &bytes, &ends, *limit);
            (rows, entries, refusal)
        });
        same &= refusal == 0;
        timed(&mut b, || reads.iter().for_each(|read| drop(black_box(mapper.inner.map(read, *limit)))));
    }
    print("mapping", &mut a, &mut b, Some(reads.len()));
    let mut equal = 0;
    let mut states = [0; 6];
    for (i, read) in reads.iter().enumerate() {
        let answer = mapper.map(read, *limit).expect("the Rust maps");
        let w = answer.work;
        let row = [0, answer.state, answer.groups.len() as u64, w[0], w[1], w[2], w[3], w[4]];
        let listed = &entries[4 * share * i..4 * share * (i + 1)];
        let groups = answer.groups.as_flattened();
        let zeros = listed[groups.len().min(listed.len())..].iter().all(|&x| x == 0);
        equal += usize::from(rows[8 * i..8 * i + 8] == row && listed.starts_with(groups) && zeros);
        states[answer.state as usize] += 1;
    }
    println!(
        "  answers equal: {equal} of {}; indeterminate {}, unmapped {}, single {}, multiple {}",
        reads.len(),
        states[INDETERMINATE as usize],
        states[3],
        states[4],
        states[5]
    );
    same &= equal == reads.len();
    if beside_bowtie {
        same &= bowtie::run(set, &mut placements(&rows, &entries, *share));
    }
    same
}

/// What we list, read after read.
fn placements(rows: &[u64], entries: &[u64], share: usize) -> Vec<bowtie::Placement> {
    let reads = rows.chunks(8).zip(entries.chunks(4 * share)).enumerate();
    let of_read = |(i, (row, listed)): (usize, (&[u64], &[u64]))| {
        let groups = listed.chunks(4).take(row[2] as usize);
        groups.map(|g| [i as u64, g[0], g[1], g[3]]).collect::<Vec<_>>()
    };
    reads.flat_map(of_read).collect()
}

