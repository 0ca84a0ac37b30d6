//! The Rust, asked through its public calls.

use crate::{Catalogue, MOST_LIMIT};
use std::collections::HashMap;
use veritasm::audit::{PlacementGroup, ReadState};
use veritasm::error::VeritasmError;
use veritasm::indexed_mapper::{IndexedExactMapper, IndexedMapperConfig};
use veritasm::model::{AvailabilityU64, Topology, Unitig};

/// The number of the rules for an error, by its text; 0 where the rules have none.
pub fn refusal(error: &VeritasmError) -> u64 {
    match error.text.as_str() {
        "indexed-mapper seed length is outside its domain" => 1,
        "indexed mapping target is not nonempty uppercase ACGT" => 3,
        "duplicate unitig identifier in indexed mapping target set" => 4,
        "indexed mapper requires a nonempty eligible uppercase ACGT read" => 8,
        "indexed-mapper candidate limit is outside the stable domain" => 9,
        _ => 0,
    }
}

/// The targets, if ends, lengths and marks are right. Identifiers that are no text are replaced by their
/// places in order, so that the Rust sees the same order and the same equal names.
pub fn unitigs(c: &Catalogue) -> Option<Vec<Unitig>> {
    let targets = c.targets()?;
    let text = targets.iter().all(|t| std::str::from_utf8(t.0).is_ok());
    let mut names: Vec<&[u8]> = targets.iter().map(|t| t.0).collect();
    names.sort();
    names.dedup();
    let name = |bytes: &[u8]| {
        if text {
            String::from_utf8(bytes.to_vec()).unwrap()
        } else {
            format!("{:04}", names.binary_search(&bytes).unwrap())
        }
    };
    let none = || AvailabilityU64::NotAvailable("");
    let mut unitigs = Vec::with_capacity(targets.len());
    for (identifier, bases, mark) in targets {
        unitigs.push(Unitig {
            id: name(identifier),
            sequence: bases.to_vec(),
            topology: match mark {
                0 => Topology::Linear,
                1 => Topology::ClosedGraphWalk,
                _ => return None,
            },
            edge_steps: 0,
            canonical_kmers: 0,
            minimum_support: 0,
            lower_median_support: 0,
            maximum_support: 0,
            enumeration_complete_read_placements: none(),
            single_group_read_instances: none(),
            multi_group_read_instances_with_group: none(),
            placement_enumeration_status: "",
            sequence_sha256: String::new(),
        });
    }
    Some(unitigs)
}

pub struct Mapper<'a> {
    pub inner: IndexedExactMapper<'a>,
    places: HashMap<&'a str, u64>,
}

/// State, groups as entries, and the five work counts.
#[derive(Debug, Clone, PartialEq, Eq)]
pub struct Answer {
    pub state: u64,
    pub groups: Vec<[u64; 4]>,
    pub work: [u64; 5],
}

pub const INDETERMINATE: u64 = 2;

pub fn state_number(state: ReadState) -> u64 {
    match state {
        ReadState::NotRequested => 0,
        ReadState::IneligibleAmbiguityOrQuality => 1,
        ReadState::IndeterminateCandidateLimit => INDETERMINATE,
        ReadState::Unmapped => 3,
        ReadState::SinglePlacementGroup => 4,
        ReadState::MultiplePlacementGroups => 5,
    }
}

/// Memory is not what is compared: the budgets are the largest.
pub fn config(q: usize) -> IndexedMapperConfig {
    IndexedMapperConfig { seed_length: q, index_memory_budget_bytes: u64::MAX, placement_memory_budget_bytes: u64::MAX }
}

impl<'a> Mapper<'a> {
    pub fn new(unitigs: &'a [Unitig], q: usize) -> Result<Self, VeritasmError> {
        let inner = IndexedExactMapper::new(unitigs, config(q))?;
        let places = unitigs.iter().zip(0..).map(|(u, i)| (u.id.as_str(), i)).collect();
        Ok(Self { inner, places })
    }

    pub fn map(&self, read: &[u8], limit: u64) -> Result<Answer, VeritasmError> {
        let m = self.inner.map(read, limit)?;
        let groups = m.placement_groups.unwrap_or_default();
        let w = m.work;
        Ok(Answer {
            state: state_number(m.state),
            groups: self.entries(&groups),
            work: [
                w.seed_lookups,
                w.selected_seed_hits,
                w.postings_examined,
                w.indexed_full_verifications + w.fallback_full_verifications,
                w.verified_placement_groups_seen,
            ],
        })
    }

    /// Groups as entries: the supplied place of the target, start, end, strand.
    pub fn entries(&self, groups: &[PlacementGroup]) -> Vec<[u64; 4]> {
        groups.iter().map(|g| [self.places[g.unitig_id.as_str()], g.start, g.end, u64::from(g.strand == '-')]).collect()
    }

    /// The postings of a seed as (supplied place, position): its groups on '+'.
    pub fn postings_of(&self, seed: &[u8]) -> Vec<(u64, u64)> {
        let answer = self.map(seed, MOST_LIMIT).expect("a seed is mapped");
        let plus = answer.groups.iter().filter(|g| g[3] == 0);
        plus.map(|g| (g[0], g[1])).collect()
    }
}
