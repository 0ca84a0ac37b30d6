//! Fragments as they are lent to the audit's calls.

use crate::audits::{Fragment, Read};
use crate::model_audit::ROW_NUMBERS;

/// What is lent for absent qualities, and for a second read that is not there: nobody may look at it.
const ABSENT: &[u8] = b"\x7f\x00 ";

/// A fragment as it is lent: two reads, their quality strings lent also where the mark says absent, and how many reads
/// there are; the second stands for all behind it.
#[derive(Debug, Clone)]
pub struct LentFragment {
    pub ordinal: u64,
    pub count: usize,
    pub reads: [LentRead; 2],
}

#[derive(Debug, Clone, Default)]
pub struct LentRead {
    pub role: u8,
    pub mark: u8,
    pub bases: Vec<u8>,
    pub qualities: Vec<u8>,
}

impl LentFragment {
    pub fn of(f: &Fragment) -> Self {
        let read = |i: usize| f.reads.get(i).map_or(LentRead { qualities: ABSENT.to_vec(), ..Default::default() }, LentRead::of);
        Self { ordinal: f.ordinal, count: f.reads.len(), reads: [read(0), read(1)] }
    }

    /// More reads than three are refused as three are.
    pub fn fragment(&self) -> Fragment {
        let reads = (0..self.count.min(3)).map(|i| self.reads[i.min(1)].read()).collect();
        Fragment { ordinal: self.ordinal, reads, entries: 0 }
    }
}

impl LentRead {
    fn of(read: &Read) -> Self {
        let mark = u8::from(read.qualities.is_some());
        Self { role: read.role, mark, bases: read.bases.clone(), qualities: read.qualities.clone().unwrap_or(ABSENT.to_vec()) }
    }

    fn read(&self) -> Read {
        Read { role: self.role, bases: self.bases.clone(), qualities: (self.mark == 1).then(|| self.qualities.clone()) }
    }
}

/// Many fragments as they are lent.
#[derive(Debug, Clone, Default)]
pub struct LentFragments {
    pub ordinals: Vec<u64>,
    pub counts: Vec<u64>,
    pub roles: Vec<u8>,
    pub reads: Vec<u8>,
    pub read_ends: Vec<usize>,
    pub quality_marks: Vec<u8>,
    pub qualities: Vec<u8>,
    pub quality_ends: Vec<usize>,
}

/// Parts of bytes, if their ends neither fall nor pass the bytes.
fn parts<'a>(bytes: &'a [u8], ends: &[usize]) -> Option<Vec<&'a [u8]>> {
    let mut from = 0;
    let mut all = Vec::new();
    for &to in ends {
        all.push(bytes.get(from..to)?);
        from = to;
    }
    Some(all)
}

impl LentFragments {
    pub fn of<'a>(fragments: impl Iterator<Item = &'a Fragment>) -> Self {
        let mut l = Self::default();
        for f in fragments {
            l.ordinals.push(f.ordinal);
            l.counts.push(f.reads.len() as u64);
            for read in f.reads.iter().map(LentRead::of) {
                l.roles.push(read.role);
                l.reads.extend(read.bases);
                l.read_ends.push(l.reads.len());
                l.quality_marks.push(read.mark);
                l.qualities.extend(read.qualities);
                l.quality_ends.push(l.qualities.len());
            }
        }
        l
    }

    /// None where the lists do not fit together: 25.
    pub fn fragments(&self, rows: usize) -> Option<Vec<Fragment>> {
        let n = self.roles.len();
        let counted: u128 = self.counts.iter().map(|&k| u128::from(k)).sum();
        if self.counts.len() != self.ordinals.len() || counted != n as u128 || rows != ROW_NUMBERS * n {
            return None;
        }
        if self.read_ends.len() != n || self.quality_marks.len() != n || self.quality_ends.len() != n {
            return None;
        }
        if self.roles.iter().any(|&r| r > 2) || self.quality_marks.iter().any(|&m| m > 1) {
            return None;
        }
        let (bases, qualities) = (parts(&self.reads, &self.read_ends)?, parts(&self.qualities, &self.quality_ends)?);
        let read = |i: usize| Read {
            role: self.roles[i],
            bases: bases[i].to_vec(),
            qualities: (self.quality_marks[i] == 1).then(|| qualities[i].to_vec()),
        };
        let mut at = 0;
        let fragment = |(&ordinal, &count): (&u64, &u64)| {
            let from = at;
            at += count as usize;
            Fragment { ordinal, reads: (from..at).map(read).collect(), entries: 0 }
        };
        Some(self.ordinals.iter().zip(&self.counts).map(fragment).collect())
    }
}
