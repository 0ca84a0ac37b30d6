//! The two sides, the rules in plain words, and random inputs.

pub mod audits;
pub mod inputs;
#[rustfmt::skip]
#[path = "../../../crates/jekaumeo/jekaumeo.rs"]
pub mod jekaumeo;
pub mod jobs;
pub mod lent;
pub mod model_audit;
pub mod model_books;
#[rustfmt::skip]
pub mod ours;
#[rustfmt::skip]
pub mod ours_audit;
pub mod rules;
pub mod theirs;

/// A catalogue as it is lent: bytes with ends, and a mark for each target.
#[derive(Debug, Clone, Default, PartialEq, Eq)]
pub struct Catalogue {
    pub identifiers: Vec<u8>,
    pub identifier_ends: Vec<usize>,
    pub bases: Vec<u8>,
    pub base_ends: Vec<usize>,
    pub marks: Vec<u8>,
}

impl Catalogue {
    pub fn push(&mut self, identifier: &[u8], bases: &[u8], mark: u8) {
        self.identifiers.extend_from_slice(identifier);
        self.identifier_ends.push(self.identifiers.len());
        self.bases.extend_from_slice(bases);
        self.base_ends.push(self.bases.len());
        self.marks.push(mark);
    }

    /// Identifier, bases and mark of each target, if the ends and lengths are right.
    pub fn targets(&self) -> Option<Vec<(&[u8], &[u8], u8)>> {
        let n = self.marks.len();
        if self.identifier_ends.len() != n || self.base_ends.len() != n {
            return None;
        }
        let mut targets = Vec::with_capacity(n);
        let (mut i, mut b) = (0, 0);
        for k in 0..n {
            let (ie, be) = (self.identifier_ends[k], self.base_ends[k]);
            targets.push((self.identifiers.get(i..ie)?, self.bases.get(b..be)?, self.marks[k]));
            (i, b) = (ie, be);
        }
        Some(targets)
    }
}

/// The three columns of an index: keys, ranks, positions.
pub type Columns = [Vec<u64>; 3];

pub const MOST_LIMIT: u64 = 10_000_000;
