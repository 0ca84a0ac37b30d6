//! Random catalogues, reads and damage.

use crate::{Catalogue, Columns};

/// SplitMix64.
pub struct Rng(pub u64);

impl Rng {
    pub fn next(&mut self) -> u64 {
        self.0 = self.0.wrapping_add(0x9e37_79b9_7f4a_7c15);
        let mut z = self.0;
        z = (z ^ (z >> 30)).wrapping_mul(0xbf58_476d_1ce4_e5b9);
        z = (z ^ (z >> 27)).wrapping_mul(0x94d0_49bb_1331_11eb);
        z ^ (z >> 31)
    }

    /// Below n.
    pub fn below(&mut self, n: usize) -> usize {
        (self.next() % n as u64) as usize
    }

    pub fn within(&mut self, from: usize, to: usize) -> usize {
        from + self.below(to - from + 1)
    }

    pub fn one_in(&mut self, n: usize) -> bool {
        self.below(n) == 0
    }

    pub fn pick<'a, T>(&mut self, xs: &'a [T]) -> &'a T {
        &xs[self.below(xs.len())]
    }

    pub fn bases(&mut self, n: usize, letters: &[u8]) -> Vec<u8> {
        (0..n).map(|_| *self.pick(letters)).collect()
    }
}

pub fn turned(bases: &[u8]) -> Vec<u8> {
    let complement = |b: &u8| match b {
        b'A' => b'T',
        b'C' => b'G',
        b'G' => b'C',
        b'T' => b'A',
        other => *other,
    };
    bases.iter().rev().map(complement).collect()
}

pub fn seed_length(rng: &mut Rng) -> usize {
    match rng.below(4) {
        0 => rng.within(1, 4),
        1 => rng.within(1, 12),
        2 => *rng.pick(&[15, 16, 30, 31]),
        _ => rng.within(1, 31),
    }
}

fn sequence(rng: &mut Rng, q: usize, before: &Catalogue) -> Vec<u8> {
    let n = match rng.below(6) {
        0 => rng.within(1, 4),
        1 => (q + rng.below(3)).saturating_sub(1).max(1),
        2 => rng.within(q, 2 * q + 2),
        3 => rng.within(1, 120),
        _ => rng.within(1, 45),
    };
    match rng.below(9) {
        0 => vec![*rng.pick(b"ACGT"); n],
        1 => {
            let letters = *rng.pick(&[b"AT", b"CG", b"AC"]);
            rng.bases(n, letters)
        }
        2 | 3 => {
            // a tandem repeat
            let unit = rng.within(1, 6);
            let unit = rng.bases(unit, b"ACGT");
            unit.iter().copied().cycle().take(n).collect()
        }
        4 => {
            // a palindrome
            let half = rng.bases(n.div_ceil(2), b"ACGT");
            [half.clone(), turned(&half)].concat()
        }
        5 | 6 if !before.bases.is_empty() => {
            // a part of the catalogue so far, as it is or turned round
            let a = rng.below(before.bases.len());
            let e = rng.within(a + 1, before.bases.len().min(a + n));
            let part = &before.bases[a..e];
            if rng.one_in(2) {
                part.to_vec()
            } else {
                turned(part)
            }
        }
        _ => rng.bases(n, b"ACGT"),
    }
}

fn identifier(rng: &mut Rng, k: usize) -> Vec<u8> {
    let mut name = match rng.below(9) {
        0 => Vec::new(),
        1 => vec![b'a'; rng.within(1, 8)],
        2 => b"unitig_".to_vec(),
        3 => vec![b'x'; *rng.pick(&[100, 252, 253, 254])],
        4 => "é日".as_bytes().to_vec(),
        5 => vec![0; rng.within(1, 3)],
        6 => vec![b'a', 0x7f, b'b'],
        _ => (0..rng.below(6)).map(|_| *rng.pick(b"abAB01")).collect(),
    };
    if !rng.one_in(5) {
        name.extend(format!("{k}").bytes());
    }
    name.truncate(255);
    while std::str::from_utf8(&name).is_err() {
        name.pop();
    }
    name
}

/// A right catalogue: 0 to 40 targets, all names different.
pub fn catalogue(rng: &mut Rng, q: usize) -> Catalogue {
    let n = match rng.below(8) {
        0 => rng.below(2),
        1 => rng.within(9, 40),
        _ => rng.within(1, 8),
    };
    let closed = *rng.pick(&[0, 0, 0, 0, 1, 1, 3, 9]);
    let any_bytes = rng.one_in(12);
    let mut names: Vec<Vec<u8>> = Vec::new();
    let mut c = Catalogue::default();
    for k in 0..n {
        let mut name = identifier(rng, k);
        if any_bytes && name.len() < 255 {
            name.push(*rng.pick(&[0x80, 0xc3, 0xff]));
        }
        if names.contains(&name) {
            continue;
        }
        let bases = sequence(rng, q, &c);
        let mark = u8::from(rng.below(10) < closed);
        c.push(&name, &bases, mark);
        names.push(name);
    }
    if rng.one_in(6) {
        // bytes behind the last ends belong to no target
        c.identifiers.extend_from_slice(b"rest");
        c.bases.extend_from_slice(b"acgtNACGT");
    }
    c
}

/// A proper read, near the bounds that the catalogue sets.
pub fn read(rng: &mut Rng, c: &Catalogue, q: usize) -> Vec<u8> {
    let letters: &[u8] = if rng.one_in(4) { b"AT" } else { b"ACGT" };
    if c.base_ends.is_empty() || rng.one_in(10) {
        let n = match rng.below(3) {
            0 => (q + rng.below(3)).saturating_sub(1).max(1),
            _ => rng.within(1, 40),
        };
        return match rng.below(3) {
            0 => vec![*rng.pick(b"ACGT"); n],
            _ => rng.bases(n, letters),
        };
    }
    let k = rng.below(c.base_ends.len());
    let from = if k == 0 { 0 } else { c.base_ends[k - 1] };
    let target = &c.bases[from..c.base_ends[k]];
    let n = match rng.below(6) {
        0 => (q + rng.below(3)).saturating_sub(1),
        1 => (target.len() + rng.below(3)).saturating_sub(1),
        2 => rng.within(1, q),
        3 => rng.within(q, 2 * q + 3),
        4 => rng.within(1, 4),
        _ => rng.within(1, target.len()),
    };
    let n = n.max(1);
    let start = rng.below(target.len());
    let mut read: Vec<u8> = if n <= target.len() {
        let start = start.min(target.len() - n);
        target[start..start + n].to_vec()
    } else {
        target.to_vec()
    };
    // past an end of the target
    let more = if n > read.len() {
        n - read.len()
    } else if rng.one_in(6) {
        rng.within(1, 4)
    } else {
        0
    };
    for _ in 0..more {
        let b = *rng.pick(letters);
        if rng.one_in(2) {
            read.push(b);
        } else {
            read.insert(0, b);
        }
    }
    if rng.one_in(4) {
        let i = rng.below(read.len());
        read[i] = *rng.pick(b"ACGT");
    }
    if rng.one_in(8) {
        read = [read.clone(), turned(&read)].concat();
    }
    if rng.one_in(2) {
        read = turned(&read);
    }
    read
}

/// One thing wrong with a catalogue.
pub fn damage(rng: &mut Rng, c: &mut Catalogue) {
    let n = c.marks.len();
    let i = if n == 0 { 0 } else { rng.below(n) };
    match rng.below(20) {
        0 if i > 0 && i < c.identifier_ends.len() => c.identifier_ends[i - 1] = c.identifier_ends[i] + 1,
        1 if i < c.identifier_ends.len() => c.identifier_ends[i] = *rng.pick(&[c.identifiers.len() + 1, usize::MAX, usize::MAX / 2]),
        2 if i > 0 && i < c.base_ends.len() => c.base_ends[i - 1] = c.base_ends[i] + 1,
        3 if i < c.base_ends.len() => c.base_ends[i] = *rng.pick(&[c.bases.len() + 1, usize::MAX, usize::MAX / 2]),
        4 if i < n => c.marks[i] = *rng.pick(&[2, 3, 128, 255]),
        5 => drop(c.marks.pop()),
        6 => c.marks.push(0),
        7 => drop(c.identifier_ends.pop()),
        8 => c.identifier_ends.push(c.identifiers.len()),
        9 => c.base_ends.push(c.bases.len()),
        10 if i > 0 && i < c.base_ends.len() => c.base_ends[i - 1] = c.base_ends[i],
        11 | 13 | 14 if !c.bases.is_empty() => {
            let i = rng.below(c.bases.len());
            c.bases[i] = *rng.pick(b"acgtN@BDHU\0\xff ");
        }
        12 if i < c.identifier_ends.len() => {
            // 256 bytes more in one identifier
            let at = c.identifier_ends[i].min(c.identifiers.len());
            c.identifiers.splice(at..at, [b'y'; 256]);
            for e in &mut c.identifier_ends[i..] {
                *e = e.saturating_add(256);
            }
        }
        _ => same_name(rng, c),
    }
}

/// A target more, with a name that is there already.
pub fn same_name(rng: &mut Rng, c: &mut Catalogue) {
    let Some(targets) = c.targets() else { return };
    if targets.is_empty() {
        return;
    }
    let name = rng.pick(&targets).0.to_vec();
    let end = |ends: &[usize]| ends.last().copied().unwrap_or(0);
    c.identifiers.truncate(end(&c.identifier_ends));
    c.bases.truncate(end(&c.base_ends));
    let mark = rng.below(2) as u8;
    c.push(&name, b"ACGT", mark);
}

/// One thing wrong with an index, if it has a row.
pub fn damage_index(rng: &mut Rng, columns: &mut Columns) {
    let n = columns[0].len();
    let column = rng.below(3);
    if n == 0 {
        columns[column].push(0);
        return;
    }
    let i = rng.below(n);
    match rng.below(6) {
        0 => columns[column][i] = columns[column][i].wrapping_add(1),
        1 => columns[column][i] = *rng.pick(&[0, u64::MAX, 1 << 62, columns[column][i].wrapping_sub(1)]),
        2 => drop(columns[column].pop()),
        3 => columns[column].push(*rng.pick(&[0, 7, u64::MAX])),
        4 => columns.iter_mut().for_each(|c| {
            c.remove(i);
        }),
        _ => columns.iter_mut().for_each(|c| c.swap(i, n - 1)),
    }
}

/// A read that is refused.
pub fn bad_read(rng: &mut Rng, good: &[u8]) -> Vec<u8> {
    match rng.below(3) {
        0 => Vec::new(),
        1 => vec![*rng.pick(b"AN"); *rng.pick(&[65536, 65537, 70000])],
        _ => {
            let mut read = good.to_vec();
            let i = rng.below(read.len());
            read[i] = *rng.pick(b"acgtN@BDHU\0\xff ");
            read
        }
    }
}
