//! The mapper of the proved library, by the module that ships with it.

use crate::jekaumeo::{self, Index};
use crate::{Catalogue, Columns};

impl Catalogue {
    pub fn lent(&self) -> jekaumeo::Catalogue<'_> {
        let Self { identifiers, identifier_ends, bases, base_ends, marks } = self;
        jekaumeo::Catalogue { identifiers, identifier_ends, bases, base_ends, marks }
    }
}

pub fn index([keys, ranks, positions]: &Columns) -> Index<'_> {
    Index { keys, ranks, positions }
}

pub fn plan(answer: &mut [u64], c: &Catalogue, q: usize) -> u64 {
    jekaumeo::plan(answer, c.lent(), q)
}

pub fn build(answer: &mut [u64], [keys, ranks, positions]: [&mut [u64]; 3], c: &Catalogue, q: usize) -> u64 {
    jekaumeo::build(answer, keys, ranks, positions, c.lent(), q)
}

pub fn check_index(columns: &Columns, c: &Catalogue, q: usize) -> u64 {
    jekaumeo::check_index(index(columns), c.lent(), q)
}

pub fn map(answer: &mut [u64], entries: &mut [u64], columns: &Columns, c: &Catalogue, q: usize, read: &[u8], limit: u64) -> u64 {
    jekaumeo::map(answer, entries, index(columns), c.lent(), q, read, limit)
}

/// Eight numbers a row; each read has an equal share of the entries.
pub fn map_reads(rows: &mut [u64], entries: &mut [u64], columns: &Columns, c: &Catalogue, q: usize, reads: &[u8], read_ends: &[usize], limit: u64) -> u64 {
    jekaumeo::map_reads(rows, entries, index(columns), c.lent(), q, reads, read_ends, limit)
}
