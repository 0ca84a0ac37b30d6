//! Builds, maps and audits on both sides, in one process on the same inputs, and prints the times.

mod audits;
mod bowtie;
mod mapper;
mod sets;
mod stream;

use harness::inputs::Rng;
use harness::MOST_LIMIT;
use std::env;
use std::process::ExitCode;
use std::time::Instant;
use veritasm::indexed_mapper::DEFAULT_SEED_LENGTH;

fn median(times: &mut [f64]) -> f64 {
    times.sort_by(f64::total_cmp);
    times[times.len() / 2]
}

fn timed<R>(times: &mut Vec<f64>, f: impl FnOnce() -> R) -> R {
    let start = Instant::now();
    let r = f();
    times.push(start.elapsed().as_secs_f64());
    r
}

/// Both medians and their ratio; and what one of so many reads takes.
fn print(what: &str, ours: &mut [f64], theirs: &mut [f64], reads: Option<usize>) {
    let (a, b) = (median(ours), median(theirs));
    print!("  {what:<9} ours {a:8.3} s   Rust {b:8.3} s   ratio {:.3}", a / b);
    match reads {
        Some(n) => println!("   a read {:.2} and {:.2} µs", a / n as f64 * 1e6, b / n as f64 * 1e6),
        None => println!(),
    }
}

fn main() -> ExitCode {
    let mut rng = Rng(1);
    println!("seconds are the median of three. The audit of the Rust takes limits up to {MOST_LIMIT}; the random sets use that.");
    let only = env::args().nth(1);
    let wanted = |name: &str| only.as_deref().is_none_or(|only| only == name);
    let mut same = true;
    if wanted("random") {
        same &= mapper::run(&sets::random(&mut rng, "random", 1000, 5000, 1), true);
    }
    if wanted("largest") {
        same &= mapper::run(&sets::random(&mut rng, "largest", 1024, 16_384, 1), true);
    }
    if wanted("twice") {
        same &= mapper::run(&sets::random(&mut rng, "twice", 1000, 5000, 2), true);
    }
    if wanted("copies") {
        same &= mapper::run(&sets::random(&mut rng, "copies", 1000, 5000, 20), true);
    }
    if wanted("wrong") {
        same &= mapper::run(&sets::wrong(&mut rng), true);
    }
    if wanted("hostile") {
        same &= mapper::run(&sets::hostile(&mut rng, "hostile", DEFAULT_SEED_LENGTH), false);
    }
    if wanted("hostile31") {
        same &= mapper::run(&sets::hostile(&mut rng, "hostile31", 31), false);
    }
    if wanted("crowded") {
        same &= mapper::run(&sets::crowded(&mut rng), false);
    }
    if wanted("long") {
        same &= mapper::run(&sets::long(&mut rng), false);
    }
    if wanted("stream") {
        same &= stream::run(&mut rng);
    }
    if wanted("audits") {
        same &= audits::run(&mut rng);
    }
    println!("{}", if same { "all answers equal" } else { "ANSWERS DIFFER" });
    ExitCode::from(u8::from(!same))
}
