//! Runs both sides on the same inputs and compares all that they answer and write.
//!
//! usage: compare [CASES] [SEED]

mod audit_case;
mod audit_flaws;
mod audit_inputs;
mod audit_tally;
mod audits;
mod beside;
mod buffer;
mod count;
mod map_inputs;
mod maps;

use audit_tally::AuditTally;
use harness::inputs::Rng;
use maps::Tally;
use std::process::ExitCode;

/// Of so many cases one is a whole audit.
const AUDITS: u64 = 4;

fn main() -> ExitCode {
    let mut args = std::env::args().skip(1).map(|a| a.parse::<u64>().expect("a number"));
    let cases = args.next().unwrap_or(1_000_000);
    let seed = args.next().unwrap_or(1);
    let (mut maps, mut audits) = (Tally::default(), AuditTally::default());
    let mut rng = Rng(seed);
    map_inputs::exhaustive(&mut maps);
    audit_inputs::exhaustive(&mut audits);
    println!("{} exhaustive, {} of them audits", maps.compared + audits.compared, audits.compared);
    let before = (maps.compared, audits.compared);
    map_inputs::bounds(&mut maps, &mut rng);
    audit_inputs::bounds(&mut audits, &mut rng);
    let at_bounds = (maps.compared - before.0, audits.compared - before.1);
    println!("{} at the bounds, {} of them audits", at_bounds.0 + at_bounds.1, at_bounds.1);
    while maps.compared + audits.compared < cases {
        if AUDITS * audits.compared < maps.compared + audits.compared {
            audit_inputs::random(&mut audits, &mut rng);
        } else {
            map_inputs::random(&mut maps, &mut rng);
        }
    }
    maps.print();
    audits.print();
    println!("seed {seed}");
    let different = maps.different + audits.different;
    println!("{} compared, {different} different", maps.compared + audits.compared);
    ExitCode::from(u8::from(different != 0))
}
