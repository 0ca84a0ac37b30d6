//! One job through `catch`, beside the Rust on the same fragments.
//!
//! A job is timed from the start of our program to its end, its stream written to one pipe and its lines read from
//! another; of the Rust, opening, fragments and finish are timed, on fragments in memory and with no line written.

use crate::{print, timed};
use harness::inputs::{turned, Rng};
use harness::{jobs, theirs, Catalogue};
use std::env;
use std::hint::black_box;
use veritasm::audit::{audit_fragments, AuditAccumulator};
use veritasm::model::Fragment;

/// As many targets and bases as a stream holds. Eight targets are longer than a read; the last of them is the one
/// before it turned round, so that its reads have two placements. The last target of all is a closed walk.
fn targets(rng: &mut Rng) -> Catalogue {
    let mut c = Catalogue::default();
    for k in 0..16 {
        let bases = match k {
            7 => turned(&c.bases[6 * 112..]),
            k => rng.bases(if k < 8 { 112 } else { 16 }, b"ACGT"),
        };
        c.push(format!("unitig_{k:06}").as_bytes(), &bases, u8::from(k == 15));
    }
    c
}

/// Single reads of 100 bases with qualities, from both strands, and one in ten random.
fn fragments(rng: &mut Rng, c: &Catalogue) -> Vec<Fragment> {
    let read = |i: u64| {
        let at = rng.below(8) * 112 + rng.below(13);
        let bases = match i % 10 {
            0 => rng.bases(100, b"ACGT"),
            k if k % 2 == 1 => c.bases[at..at + 100].to_vec(),
            _ => turned(&c.bases[at..at + 100]),
        };
        let qualities = (0..100).map(|_| rng.within(33, 126) as u8).collect();
        jobs::single(i, bases, qualities)
    };
    (0..100_000).map(read).collect()
}

/// Three times a job on both sides, one after the other; whether all lines were equal.
pub fn run(rng: &mut Rng) -> bool {
    let limit = 10;
    let c = targets(rng);
    let fragments = fragments(rng, &c);
    let job = jobs::stream(&c, &fragments, limit);
    let (n, bases, reads) = (c.marks.len(), c.bases.len(), fragments.len());
    println!("stream: {n} targets, {bases} bases, {reads} reads, {} bytes, limit {limit}", job.len());

    let named = env::var_os("CATCH").filter(|name| !name.is_empty());
    let program = named.unwrap_or_else(|| "crates/catch/out/catch".into());
    let mut unitigs = theirs::unitigs(&c).expect("a right catalogue");
    let (mut a, mut b) = (Vec::new(), Vec::new());
    let mut written = Vec::new();
    for _ in 0..3 {
        written = timed(&mut a, || jobs::catch(&program, &job)).unwrap_or_else(|e| panic!("{program:?}: {e}"));
        timed(&mut b, || {
            let mut audit = AuditAccumulator::new(&unitigs, jobs::config(limit)).expect("the Rust opens");
            fragments.iter().for_each(|f| drop(black_box(audit.audit_fragment(f))));
            black_box(audit.finish()).expect("the Rust finishes")
        });
    }
    print("a job", &mut a, &mut b, Some(reads));
    let result = audit_fragments(&fragments, &mut unitigs, jobs::config(limit)).expect("the Rust audits");
    let expected = jobs::lines(&result, &unitigs);
    let (ours, theirs) = (jobs::split(&written), jobs::split(expected.as_bytes()));
    let equal = ours.iter().zip(&theirs).filter(|(a, b)| a == b).count();
    let counts: Vec<u64> = result.state_counts.iter().map(|s| s.count).collect();
    println!(
        "  lines equal: {equal} of {}; ineligible {}, indeterminate {}, unmapped {}, single {}, multiple {}",
        theirs.len(),
        counts[0],
        counts[1],
        counts[2],
        counts[3],
        counts[4]
    );
    written == expected.as_bytes()
}
