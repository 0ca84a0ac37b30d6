//! A sample of reads that the Rust maps, for the program `test_map_rust`.

use crate::blocks::{self, two, Blocks};
use harness::inputs::{catalogue, read, seed_length, Rng};
use harness::theirs::{self, Mapper, INDETERMINATE};
use harness::{rules, Catalogue, MOST_LIMIT};
use std::collections::HashMap;
use std::fmt::Write;

/// How many cases, and how many of one kind at most.
const CASES: usize = 4000;
const OF_A_KIND: usize = 12;

/// What the program can hold: targets, numbers of a column, numbers of the entries.
const TARGETS: usize = 16;
const COLUMN: usize = 256;
const ENTRIES: usize = 256;

const BLOCK: usize = 131072;
const LEAST: usize = 32;

/// What fills a block up: a call with nothing in it, which seed length 0 refuses, and zeros behind it.
fn filler(n: usize) -> Vec<u8> {
    vec![0; n]
}

/// Numbers of two bytes, the low one first; `test_map_calls` says in which order.
fn written(c: &Catalogue, q: usize, read: &[u8], limit: u64, entries: usize, postings: usize) -> Vec<u8> {
    let limits = [(limit % 65536) as usize, (limit / 65536) as usize];
    let lengths = [c.identifiers.len(), c.identifier_ends.len(), c.bases.len(), c.base_ends.len(), c.marks.len(), read.len()];
    let head = [q, limits[0], limits[1], entries, postings, postings, postings, 0, 0, 0];
    let numbers = |xs: &[usize]| xs.iter().flat_map(|&x| two(x)).collect::<Vec<u8>>();
    [
        &numbers(&head)[..],
        &numbers(&lengths),
        &c.identifiers,
        &numbers(&c.identifier_ends),
        &c.bases,
        &numbers(&c.base_ends),
        &c.marks,
        read,
    ]
    .concat()
}

/// A limit around the number of matches, and numbers lent of the entries, so that 10 is not the answer.
fn lent(rng: &mut Rng, matches: u64) -> (u64, usize) {
    let limit = match rng.below(6) {
        0 => 1,
        1 => matches.saturating_sub(1).max(1),
        2 => matches.max(1),
        3 => matches + 1,
        4 => rng.within(1, 8) as u64,
        _ => MOST_LIMIT,
    };
    let needed = matches.min(limit) as usize;
    (limit, 4 * (needed + rng.below(3)) + rng.below(4))
}

pub fn write(folder: &str) {
    let mut rng = Rng(2);
    let (mut cases, mut lines) = (Blocks::new(BLOCK, LEAST, filler), String::new());
    let mut kinds: HashMap<_, usize> = HashMap::new();
    let mut states = [0; 6];
    let mut n = 0;
    while n < CASES {
        let q = seed_length(&mut rng);
        let c = catalogue(&mut rng, q);
        let fits = c.marks.len() <= TARGETS && c.bases.len() <= COLUMN && c.identifiers.len() <= COLUMN;
        let Some(unitigs) = fits.then(|| theirs::unitigs(&c)).flatten() else { continue };
        let Ok(mapper) = Mapper::new(&unitigs, q) else { continue };
        let postings = rules::index(&c, q)[0].len();
        for _ in 0..4 {
            let read = read(&mut rng, &c, q);
            if read.len() > COLUMN || rules::read_refusal(&read, 1) != 0 {
                continue;
            }
            let matches = mapper.map(&read, MOST_LIMIT).expect("the Rust maps").groups.len() as u64;
            let (limit, entries) = lent(&mut rng, matches);
            if entries > ENTRIES || rules::room_refusal(entries as u64 / 4, limit, matches) != 0 {
                continue;
            }
            let a = mapper.map(&read, limit).expect("the Rust maps");
            let length = read.len().cmp(&q);
            let around = (matches.cmp(&limit), limit.abs_diff(matches) < 2, limit == 1);
            let kind = (a.state, length, around, matches.min(3), q.min(5), a.work.map(|w| w.min(3)), c.marks.contains(&1));
            let of_kind = kinds.entry(kind).or_default();
            if *of_kind == OF_A_KIND || n == CASES {
                continue;
            }
            *of_kind += 1;
            n += 1;
            states[a.state as usize] += 1;
            let case = written(&c, q, &read, limit, entries, postings);
            if cases.push(&case) {
                lines += "refused 1\nentries\n";
            }
            let listed = if a.state == INDETERMINATE { &[] } else { a.groups.as_flattened() };
            let whole = entries / 4 * 4;
            let numbers = (0..entries).map(|i| if i < whole { *listed.get(i).unwrap_or(&0) } else { 999 });
            let w = a.work;
            writeln!(lines, "mapped {} {} {} {} {} {} {}", a.state, listed.len() / 4, w[0], w[1], w[2], w[3], w[4]).unwrap();
            writeln!(lines, "entries{}", numbers.fold(String::new(), |text, x| text + " " + &x.to_string())).unwrap();
        }
    }
    println!(
        "{n} cases of {} kinds; indeterminate {}, unmapped {}, single {}, multiple {}",
        kinds.len(),
        states[2],
        states[3],
        states[4],
        states[5]
    );
    blocks::write(folder, &cases, &lines);
}
