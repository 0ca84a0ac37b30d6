//! Jobs of the program `catch`: the stream of one, the program run on it, and the lines that the Rust's answers come to.

use crate::theirs::state_number;
use crate::Catalogue;
use std::ffi::OsStr;
use std::io::{self, Read, Write};
use std::process::{Command, Stdio};
use std::thread;
use veritasm::audit::{AuditConfig, AuditInputMode, AuditResult, ReadState};
use veritasm::model::{AvailabilityU64, Fragment, MateRole, ReadRecord, Unitig};

/// Single reads put on the targets, all of them eligible by quality.
pub fn config(limit: u64) -> AuditConfig {
    AuditConfig {
        input_mode: AuditInputMode::SingleEnd,
        remap: true,
        min_base_quality: 0,
        max_mapping_candidates: limit,
        // the most that the Rust takes
        memory_budget_bytes: 64 << 30,
    }
}

pub fn single(ordinal: u64, bases: Vec<u8>, qualities: Vec<u8>) -> Fragment {
    let read = ReadRecord { role: MateRole::S, normalized_id_digest: [0; 32], sequence: bases, quality: Some(qualities) };
    Fragment { ordinal, lane_ordinal: 0, reads: vec![read] }
}

/// The stream of a job with the settings of `config`.
pub fn stream(c: &Catalogue, fragments: &[Fragment], limit: u64) -> Vec<u8> {
    let mut bytes = vec![1, 0, 1, 0];
    bytes.extend(limit.to_le_bytes());
    for (identifier, bases, mark) in c.targets().expect("a right catalogue") {
        bytes.extend([2, mark, identifier.len() as u8]);
        bytes.extend((bases.len() as u32).to_le_bytes());
        bytes.extend(identifier);
        bytes.extend(bases);
    }
    for fragment in fragments {
        bytes.push(3);
        bytes.extend(fragment.ordinal.to_le_bytes());
        bytes.push(fragment.reads.len() as u8);
        for read in &fragment.reads {
            bytes.extend([4, read.role.tag(), u8::from(read.quality.is_some())]);
            bytes.extend((read.sequence.len() as u32).to_le_bytes());
            bytes.extend(&read.sequence);
            bytes.extend(read.quality.iter().flatten());
        }
    }
    bytes.push(5);
    bytes
}

/// What the program writes for a stream that is fed to it through a pipe.
pub fn catch(program: &OsStr, stream: &[u8]) -> io::Result<Vec<u8>> {
    let mut child = Command::new(program).stdin(Stdio::piped()).stdout(Stdio::piped()).spawn()?;
    let mut input = child.stdin.take().expect("a pipe");
    let mut output = child.stdout.take().expect("a pipe");
    let mut lines = Vec::new();
    thread::scope(|scope| {
        // A program that ends before its stream breaks the pipe; its lines show that.
        scope.spawn(move || drop(input.write_all(stream)));
        output.read_to_end(&mut lines)
    })?;
    let status = child.wait()?;
    if status.success() {
        Ok(lines)
    } else {
        Err(io::Error::other(status.to_string()))
    }
}

/// The lines of an output. What is behind the last LF is a line too.
pub fn split(output: &[u8]) -> Vec<&[u8]> {
    let mut lines: Vec<&[u8]> = output.split(|&b| b == b'\n').collect();
    if lines.last().is_some_and(|rest| rest.is_empty()) {
        lines.pop();
    }
    lines
}

/// The lines that the Rust's answers come to, with the targets that it has written its totals to.
pub fn lines(result: &AuditResult, unitigs: &[Unitig]) -> String {
    let mut text = String::new();
    for read in &result.read_audits {
        let groups = read.placement_groups.as_deref();
        let places = groups.map_or("-".into(), |groups| groups.len().to_string());
        let (role, state) = (read.mate_role.as_str(), state_number(read.state));
        text += &format!("R {} {role} {state} {places}\n", read.fragment_ordinal);
        for g in groups.unwrap_or_default() {
            text += &format!("G {} {} {} {}\n", g.unitig_id, g.start, g.end, g.strand);
        }
    }
    for count in &result.state_counts {
        let role = count.role.expect("counts are by role").as_str();
        text += &format!("S {role} {} {}\n", state_of(count.state), count.count);
    }
    for u in unitigs {
        let placements = total(&u.enumeration_complete_read_placements);
        let singles = total(&u.single_group_read_instances);
        let multi = total(&u.multi_group_read_instances_with_group);
        text += &format!("T {} {placements} {singles} {multi} {}\n", u.id, u.placement_enumeration_status);
    }
    let all = &result.placement_totals;
    let placements = total(&all.enumeration_complete_read_placements);
    let singles = total(&all.single_group_read_instances);
    let multi = total(&all.multi_group_read_instances_with_group);
    text + &format!("A {} {placements} {singles} {multi}\n", result.global_enumeration_status)
}

fn total(n: &AvailabilityU64) -> String {
    match n {
        AvailabilityU64::Value(n) => n.to_string(),
        AvailabilityU64::NotAvailable(_) => "-".into(),
    }
}

/// The number of a state by its word.
pub fn state_of(word: &str) -> u64 {
    let states = [
        ReadState::NotRequested,
        ReadState::IneligibleAmbiguityOrQuality,
        ReadState::IndeterminateCandidateLimit,
        ReadState::Unmapped,
        ReadState::SinglePlacementGroup,
        ReadState::MultiplePlacementGroups,
    ];
    let state = states.into_iter().find(|s| s.as_str() == word);
    state_number(state.expect("a state of the Rust"))
}
