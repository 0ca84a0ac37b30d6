//! Whole audits: what one is given, and what the Rust's accumulator makes of it.

use crate::theirs::{self, state_number, Answer, Mapper};
use crate::{jobs, Catalogue};
use veritasm::audit::{AuditAccumulator, AuditConfig, AuditInputMode, FinalizedAudit, PlacementTotals, ReadAudit};
use veritasm::error::VeritasmError;
use veritasm::indexed_mapper::DEFAULT_SEED_LENGTH;
use veritasm::model::{self, AvailabilityU64, MateRole, ReadRecord, Unitig};

/// Mode is 0 for single reads and 1 for pairs; remap is 0 for off and 1 for on.
#[derive(Debug, Clone, Copy, PartialEq, Eq)]
pub struct Settings {
    pub mode: u8,
    pub remap: u8,
    pub floor: u8,
    pub limit: u64,
}

/// Role is 0 for S, 1 for R1, 2 for R2.
#[derive(Debug, Clone, Default, PartialEq, Eq)]
pub struct Read {
    pub role: u8,
    pub bases: Vec<u8>,
    pub qualities: Option<Vec<u8>>,
}

/// A fragment, and how many numbers of entries are lent at its call.
#[derive(Debug, Clone, Default, PartialEq, Eq)]
pub struct Fragment {
    pub ordinal: u64,
    pub reads: Vec<Read>,
    pub entries: usize,
}

/// The targets with their topology, the settings, and the fragments in order of their calls.
#[derive(Debug, Clone, PartialEq, Eq)]
pub struct Case {
    pub c: Catalogue,
    pub settings: Settings,
    pub fragments: Vec<Fragment>,
}

pub const COMPLETE: u64 = 0;
pub const CANDIDATE_LIMIT: u64 = 1;
pub const REMAP_DISABLED: u64 = 2;
pub const CLOSED_WALK: u64 = 3;

/// A status, and placements, singles and multi where they are available.
#[derive(Debug, Clone, PartialEq, Eq)]
pub struct Shown {
    pub status: u64,
    pub totals: Option<[u64; 3]>,
}

/// What `finish` and `apply_to_unitigs` show.
#[derive(Debug, Clone, PartialEq, Eq)]
pub struct Finished {
    /// Role, state, count: the rows of the mode's roles and of the states that remap allows.
    pub counts: Vec<[u64; 3]>,
    pub run: Shown,
    /// Of each target, as supplied.
    pub targets: Vec<Shown>,
}

/// Where a run of the Rust ended before its `finish`.
#[derive(Debug, Clone, PartialEq, Eq)]
pub enum Stage {
    Opening,
    /// The fragment's place in the list.
    Fragment(usize),
    Finish,
}

/// An error of the Rust: where, its number in the rules (0 where they have none), its text.
#[derive(Debug, Clone, PartialEq, Eq)]
pub struct Stop {
    pub stage: Stage,
    pub refusal: u64,
    pub text: String,
}

/// The answers to each fragment up to the first error, and how the run ended.
#[derive(Debug, Clone, PartialEq, Eq)]
pub struct Run {
    pub answers: Vec<Vec<Answer>>,
    pub end: Result<Finished, Stop>,
}

/// The Rust on a case. None where its types cannot hold the input: ends that are wrong, or a mark, role, mode or remap
/// that the rules do not name.
pub fn run(case: &Case) -> Option<Run> {
    let unitigs = theirs::unitigs(&case.c)?;
    let config = config(&case.settings)?;
    let fragments: Vec<model::Fragment> = case.fragments.iter().map(fragment).collect::<Option<_>>()?;
    let mut answers = Vec::new();
    let end = (|| {
        let stop = |stage, e: VeritasmError| Stop { stage, refusal: refusal(&e, &case.settings), text: e.text };
        let mut audit = AuditAccumulator::new(&unitigs, config).map_err(|e| stop(Stage::Opening, e))?;
        let mapper = (case.settings.remap == 1).then(|| Mapper::new(&unitigs, DEFAULT_SEED_LENGTH).expect("the Rust opened"));
        for (i, fragment) in fragments.iter().enumerate() {
            let audits = audit.audit_fragment(fragment).map_err(|e| stop(Stage::Fragment(i), e))?;
            let rows = audits.iter().zip(&fragment.reads);
            answers.push(rows.map(|(a, read)| answer(a, &read.sequence, mapper.as_ref(), case.settings.limit)).collect());
        }
        let finalized = audit.finish().map_err(|e| stop(Stage::Finish, e))?;
        Ok(finished(&finalized, unitigs.clone()))
    })();
    Some(Run { answers, end })
}

/// The Rust's settings, if these are values that it has. Memory is not what is compared.
pub fn config(s: &Settings) -> Option<AuditConfig> {
    let input_mode = match s.mode {
        0 => AuditInputMode::SingleEnd,
        1 => AuditInputMode::PairedEnd,
        _ => return None,
    };
    let remap = match s.remap {
        0 => false,
        1 => true,
        _ => return None,
    };
    Some(AuditConfig { input_mode, remap, min_base_quality: s.floor, ..jobs::config(s.limit) })
}

/// The Rust's form of a fragment, if it has the roles.
pub fn fragment(f: &Fragment) -> Option<model::Fragment> {
    let role = |n: u8| [MateRole::S, MateRole::R1, MateRole::R2].into_iter().find(|r| r.tag() == n);
    let read = |r: &Read| {
        let (sequence, quality) = (r.bases.clone(), r.qualities.clone());
        Some(ReadRecord { role: role(r.role)?, normalized_id_digest: [0; 32], sequence, quality })
    };
    let reads = f.reads.iter().map(read).collect::<Option<_>>()?;
    Some(model::Fragment { ordinal: f.ordinal, lane_ordinal: 0, reads })
}

/// The number of the rules for an error. One text stands for the floor and the limit, and the rules look at the floor first.
pub fn refusal(error: &VeritasmError, s: &Settings) -> u64 {
    match error.text.as_str() {
        "audit quality and candidate limits are outside the stable domain" if s.floor > 93 => 11,
        "audit quality and candidate limits are outside the stable domain" => 9,
        "unitig mapping target is not nonempty uppercase ACGT" => 3,
        "duplicate unitig identifier in mapping target set" => 4,
        "fragment ordinals are not strictly increasing" => 12,
        "fragment roles do not match the run input mode" => 13,
        "validated spool contains an empty read" => 14,
        "validated spool has unequal sequence and quality lengths" => 15,
        "validated spool contains an invalid Phred+33 byte" => 16,
        _ => theirs::refusal(error),
    }
}

/// State and groups by the accumulator; the work by the mapper that it uses, on the read in upper case.
pub fn answer(audit: &ReadAudit, read: &[u8], mapper: Option<&Mapper>, limit: u64) -> Answer {
    let state = state_number(audit.state);
    let Some(mapper) = mapper.filter(|_| state > 1) else {
        return Answer { state, groups: Vec::new(), work: [0; 5] };
    };
    let groups = mapper.entries(audit.placement_groups.as_deref().unwrap_or_default());
    let mapped = mapper.map(&read.to_ascii_uppercase(), limit).expect("an eligible read is mapped");
    assert!(mapped.state == state && mapped.groups == groups, "the Rust's audit and its mapper differ");
    mapped
}

/// What a finished audit shows, with the targets that it is written to.
pub fn finished(finalized: &FinalizedAudit, mut unitigs: Vec<Unitig>) -> Finished {
    finalized.apply_to_unitigs(&mut unitigs).expect("the same targets");
    let summary = &finalized.summary;
    let counts = summary.state_counts.iter().map(|s| {
        let role = s.role.expect("counts are by role").tag();
        [role.into(), jobs::state_of(s.state), s.count]
    });
    let target = |u: &Unitig| Shown {
        status: status(u.placement_enumeration_status),
        totals: totals(&PlacementTotals {
            enumeration_complete_read_placements: u.enumeration_complete_read_placements.clone(),
            single_group_read_instances: u.single_group_read_instances.clone(),
            multi_group_read_instances_with_group: u.multi_group_read_instances_with_group.clone(),
        }),
    };
    Finished {
        counts: counts.collect(),
        run: Shown { status: status(summary.global_enumeration_status), totals: totals(&summary.placement_totals) },
        targets: unitigs.iter().map(target).collect(),
    }
}

/// The number of a status by its word.
fn status(word: &str) -> u64 {
    match word {
        "placement_enumeration_complete" => COMPLETE,
        "indeterminate_candidate_limit" => CANDIDATE_LIMIT,
        "unavailable_remap_disabled" => REMAP_DISABLED,
        "unavailable_closed_walk_audit_unsupported" => CLOSED_WALK,
        _ => panic!("a status of the Rust: {word}"),
    }
}

/// All three or none.
fn totals(t: &PlacementTotals) -> Option<[u64; 3]> {
    use AvailabilityU64::{NotAvailable, Value};
    match (&t.enumeration_complete_read_placements, &t.single_group_read_instances, &t.multi_group_read_instances_with_group) {
        (Value(a), Value(b), Value(c)) => Some([*a, *b, *c]),
        (NotAvailable(_), NotAvailable(_), NotAvailable(_)) => None,
        _ => panic!("the Rust shows one total and not another"),
    }
}
