//! A sample of whole audits by the Rust, for the program `test_audit_rust`.

use crate::audit_inputs::audit;
use crate::audit_kinds::{kind, note, Kind};
use crate::audit_lines::{filler, plain_answers, targets, Lent, Script, LEAST};
use crate::blocks::{self, Blocks};
use harness::audits::{self, Case, Run, Stage, Stop};
use harness::inputs::Rng;
use std::collections::{BTreeMap, HashMap};

/// How many audits, how many of one kind at most, and one in how many is audited plain too.
const AUDITS: usize = 1800;
const OF_A_KIND: usize = 6;
const PLAIN: usize = 8;

const BLOCK: usize = 196608;

pub fn write(folder: &str) {
    let mut rng = Rng(3);
    let (mut cases, mut lines) = (Blocks::new(BLOCK, LEAST, filler), String::new());
    let mut kinds: HashMap<Kind, usize> = HashMap::new();
    let mut seen = BTreeMap::new();
    let (mut n, mut plain) = (0, 0);
    while n < AUDITS {
        let Some((case, postings)) = audit(&mut rng) else { continue };
        let Some((case, run)) = answered(case) else { continue };
        let of_kind = kinds.entry(kind(&case, &run)).or_default();
        if *of_kind == OF_A_KIND {
            continue;
        }
        *of_kind += 1;
        n += 1;
        let mut script = Script::default();
        let mut lent = Lent { plain: false, targets: case.c.marks.len(), postings };
        script.audit(&case, &run, &run.answers, &lent);
        if let Some(answers) = plain_answers(&case, &run.answers).filter(|_| rng.one_in(PLAIN)) {
            lent.plain = true;
            script.audit(&case, &run, &answers, &lent);
            plain += 1;
        }
        cases.push(&[targets(&case.c), script.commands].concat());
        lines += &script.lines;
        note(&mut seen, &case, &run);
    }
    for (what, n) in &seen {
        println!("  {what:<50} {n:>5}");
    }
    println!("{n} audits of {} kinds, {plain} of them plain too", kinds.len());
    blocks::write(folder, &cases, &lines);
}

/// The audit up to the Rust's first error, if the rules have a number for that one.
fn answered(mut case: Case) -> Option<(Case, Run)> {
    let run = audits::run(&case)?;
    match &run.end {
        Ok(_) => {}
        Err(Stop { stage: Stage::Opening, refusal, .. }) if *refusal != 0 => case.fragments.clear(),
        Err(Stop { stage: Stage::Fragment(i), refusal, .. }) if *refusal != 0 => case.fragments.truncate(i + 1),
        Err(stop) => panic!("an error that the rules do not have: {stop:?}"),
    }
    Some((case, run))
}
