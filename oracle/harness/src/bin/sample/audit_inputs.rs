//! Random whole audits, small ones, around the boundaries of the rules.

use harness::audits::{Case, Fragment, Read, Settings};
use harness::inputs::{self, Rng};
use harness::theirs::{self, Mapper};
use harness::{Catalogue, MOST_LIMIT};
use veritasm::indexed_mapper::DEFAULT_SEED_LENGTH;
use veritasm::model::Unitig;

/// What the program can hold.
const TARGETS: usize = 16;
const POSTINGS: usize = 255;
const ENTRIES: usize = 255;
const READ: usize = 100;

/// An audit, and the number of its postings, if it is small enough.
pub fn audit(rng: &mut Rng) -> Option<(Case, usize)> {
    let c = targets(rng)?;
    let remap = u8::from(!rng.one_in(16));
    let settings = Settings { mode: rng.below(2) as u8, remap, floor: *rng.pick(&[0, 0, 0, 1, 20, 20, 40, 93]), limit: MOST_LIMIT };
    let n = match rng.below(14) {
        0 => rng.within(3, 8),
        1 | 2 => 2,
        _ => 1,
    };
    let mut ordinal = if rng.one_in(12) { *rng.pick(&[1 << 32, u64::MAX - 70]) } else { rng.below(4) as u64 };
    let mut case = Case { c, settings, fragments: Vec::new() };
    let unitigs = theirs::unitigs(&case.c)?;
    let mapper = mapper_of(&unitigs).expect("a right catalogue");
    for _ in 0..n {
        let reads = roles(settings.mode).iter().map(|&role| read(rng, &case, &mapper, role)).collect();
        case.fragments.push(Fragment { ordinal, reads, entries: 0 });
        ordinal += *rng.pick(&[1, 1, 1, 2, 9]);
    }
    case.settings.limit = limit(rng, &case);
    if rng.one_in(4) {
        wrong(rng, &mut case);
    }
    lend(rng, &mut case)?;
    let postings = mapper_of(&theirs::unitigs(&case.c)?).map_or(0, |m| m.inner.posting_count());
    (postings <= POSTINGS).then_some((case, postings))
}

fn roles(mode: u8) -> &'static [u8] {
    if mode == 0 {
        &[0]
    } else {
        &[1, 2]
    }
}

/// Mostly few targets with short names, one of them linear.
fn targets(rng: &mut Rng) -> Option<Catalogue> {
    let c = inputs::catalogue(rng, DEFAULT_SEED_LENGTH);
    let (most, names) = if rng.one_in(40) { (TARGETS, 600) } else { (3, 24) };
    let linear = c.marks.contains(&0) || rng.one_in(8);
    (linear && c.marks.len() <= most && c.identifiers.len() <= names && c.bases.len() <= 60 * most).then_some(c)
}

/// Bases with some matches, if a few draws give such ones.
fn bases(rng: &mut Rng, c: &Catalogue, mapper: &Mapper) -> Vec<u8> {
    let wanted = *rng.pick(&[0, 0, 1, 2, 3]);
    let mut bases = inputs::read(rng, c, DEFAULT_SEED_LENGTH);
    for _ in 0..5 {
        if bases.len() <= READ && matches_of(mapper, &bases) >= wanted {
            break;
        }
        bases = inputs::read(rng, c, DEFAULT_SEED_LENGTH);
    }
    bases.truncate(READ);
    bases
}

/// The Rust's mapper, if it takes the targets.
fn mapper_of(unitigs: &[Unitig]) -> Option<Mapper<'_>> {
    Mapper::new(unitigs, DEFAULT_SEED_LENGTH).ok()
}

/// The matches of a read in upper case; none of one that the mapper does not take.
fn matches_of(mapper: &Mapper, bases: &[u8]) -> u64 {
    mapper.map(&bases.to_ascii_uppercase(), MOST_LIMIT).map_or(0, |a| a.groups.len() as u64)
}

fn read(rng: &mut Rng, case: &Case, mapper: &Mapper, role: u8) -> Read {
    let mut bases = bases(rng, &case.c, mapper);
    match rng.below(8) {
        0 => bases.make_ascii_lowercase(),
        1 => bases.iter_mut().filter(|_| rng.one_in(3)).for_each(|b| b.make_ascii_lowercase()),
        2 if rng.one_in(2) => {
            let at = rng.below(bases.len());
            bases[at] = *rng.pick(b"NnRU@\0\xc1");
        }
        _ => {}
    }
    let qualities = qualities(rng, bases.len(), case.settings.floor);
    Read { role, bases, qualities }
}

/// Absent, at the floor, above it, or with one below it.
fn qualities(rng: &mut Rng, n: usize, floor: u8) -> Option<Vec<u8>> {
    let floor = floor + 33;
    let mut qualities = match rng.below(5) {
        0 => vec![floor; n],
        1 | 2 => (0..n).map(|_| rng.within(floor.into(), 126) as u8).collect(),
        _ => return None,
    };
    if floor > 33 && rng.one_in(3) {
        let at = rng.below(n);
        qualities[at] = *rng.pick(&[floor - 1, 33]);
    }
    Some(qualities)
}

/// The matches of each read, were they all eligible that can be.
fn matches(case: &Case) -> Vec<Vec<u64>> {
    let unitigs = theirs::unitigs(&case.c).unwrap_or_default();
    let mapper = mapper_of(&unitigs);
    let of = |read: &Read| match &mapper {
        Some(m) if case.settings.remap == 1 => matches_of(m, &read.bases),
        _ => 0,
    };
    case.fragments.iter().map(|f| f.reads.iter().map(of).collect()).collect()
}

/// Around the matches of one of the reads.
fn limit(rng: &mut Rng, case: &Case) -> u64 {
    let matches = matches(case);
    let of = rng.pick(&matches);
    let n = *rng.pick(of);
    match rng.below(16) {
        0 => MOST_LIMIT,
        1 | 2 => 1,
        3..=5 => n.saturating_sub(1).max(1),
        6..=9 => n.max(1),
        10 | 11 => n + 1,
        _ => rng.within(1, 8) as u64,
    }
}

/// Entries that suffice: for each read its matches or the limit, and sometimes one more.
fn lend(rng: &mut Rng, case: &mut Case) -> Option<()> {
    let limit = case.settings.limit;
    let most = if rng.one_in(20) { ENTRIES } else { 32 };
    let reads = roles(case.settings.mode).len();
    let matches = matches(case);
    for (f, matches) in case.fragments.iter_mut().zip(matches) {
        let share = matches.iter().map(|&n| n.min(limit) as usize).max().unwrap_or(0) + *rng.pick(&[0, 0, 1]);
        let odd = if reads == 2 { rng.below(2) } else { 0 };
        f.entries = 4 * (share * reads + odd) + *rng.pick(&[0, 0, 1, 3]);
        if f.entries > most {
            return None;
        }
    }
    Some(())
}

/// One thing wrong with an audit or two: with what it is opened by, or, most of them, with its fragments.
fn wrong(rng: &mut Rng, case: &mut Case) {
    if !rng.one_in(4) {
        wrong_fragment(rng, case);
        if rng.one_in(3) {
            wrong_fragment(rng, case);
        }
        return;
    }
    // never both of the targets: with remap off the Rust looks at a name before it looks at the bases of later targets
    match rng.below(4) {
        0 => wrong_base(rng, &mut case.c),
        1 => inputs::same_name(rng, &mut case.c),
        _ => wrong_settings(rng, &mut case.settings),
    }
    if rng.one_in(4) {
        wrong_settings(rng, &mut case.settings);
    }
}

fn wrong_settings(rng: &mut Rng, settings: &mut Settings) {
    if rng.one_in(2) {
        settings.floor = *rng.pick(&[94, 95, 255]);
    } else {
        settings.limit = *rng.pick(&[0, MOST_LIMIT + 1, u64::MAX]);
    }
}

fn wrong_fragment(rng: &mut Rng, case: &mut Case) {
    let floor = case.settings.floor + 33;
    if rng.one_in(6) {
        return wrong_order(rng, &mut case.fragments);
    }
    let at = rng.below(case.fragments.len());
    let reads = &mut case.fragments[at].reads;
    if rng.one_in(3) && !reads.is_empty() {
        wrong_roles(rng, reads);
    } else if !reads.is_empty() {
        let at = rng.below(reads.len());
        wrong_read(rng, &mut reads[at], floor);
    }
}

fn wrong_base(rng: &mut Rng, c: &mut Catalogue) {
    let end = c.base_ends.last().copied().unwrap_or(0);
    if end == 0 || rng.one_in(3) {
        // a target more, without a base
        c.identifiers.truncate(c.identifier_ends.last().copied().unwrap_or(0));
        c.bases.truncate(end);
        c.push(b"none", b"", rng.below(2) as u8);
    } else {
        let at = rng.below(end);
        c.bases[at] = *rng.pick(b"acgtNU");
    }
}

/// A fragment again, or one whose ordinal is not above the last.
fn wrong_order(rng: &mut Rng, fragments: &mut Vec<Fragment>) {
    if fragments.len() == 1 {
        fragments.push(fragments[0].clone());
    }
    let at = rng.within(1, fragments.len() - 1);
    let last = fragments[at - 1].ordinal;
    fragments[at].ordinal = *rng.pick(&[last, last, last.saturating_sub(1), 0]);
}

fn wrong_roles(rng: &mut Rng, reads: &mut Vec<Read>) {
    match rng.below(5) {
        0 => drop(reads.pop()),
        1 => reads.push(reads[0].clone()),
        2 => reads.push(Read { role: 2, ..reads[0].clone() }),
        3 => reads.reverse(),
        _ => {
            let at = rng.below(reads.len());
            reads[at].role = rng.below(3) as u8;
        }
    }
}

fn wrong_read(rng: &mut Rng, read: &mut Read, floor: u8) {
    let n = read.bases.len();
    match rng.below(6) {
        0 => read.bases.clear(),
        1 => read.qualities = Some(vec![floor; *rng.pick(&[n.saturating_sub(1), n + 1])]),
        2 => read.qualities = Some(vec![b'!'; *rng.pick(&[0, n.saturating_sub(1), n + 1])]),
        _ if n > 0 => {
            let mut qualities = vec![floor; n];
            qualities[rng.below(n)] = *rng.pick(&[32, 127, 0, 255]);
            // before it or behind it, one that is low
            if floor > 33 && rng.one_in(2) {
                qualities[rng.below(n)] = floor - 1;
            }
            read.qualities = Some(qualities);
        }
        _ => {}
    }
}
