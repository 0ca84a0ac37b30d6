//! The same targets and reads through bowtie, where it is installed: exact placements, all of them, by one thread.
//!
//! Its times are those of whole programs: `bowtie-build` reads targets and writes its index; `bowtie` loads that index, reads the
//! reads and writes a line for each placement. What loading takes is measured by a run over one read; what lines take, by a run
//! whose lines are empty.

use crate::sets::Set;
use crate::{median, timed};
use std::fs;
use std::io::{self, Write};
use std::path::{Path, PathBuf};
use std::process::{Command, Stdio};

/// Read, target's place, start and strand (0 for '+').
pub type Placement = [u64; 4];

fn installed() -> bool {
    let works = |program| Command::new(program).arg("--version").stdout(Stdio::null()).stderr(Stdio::null()).status().is_ok_and(|s| s.success());
    works("bowtie") && works("bowtie-build")
}

fn call(program: &str, words: &[&str], files: &[&Path]) -> io::Result<()> {
    let status = Command::new(program).args(words).args(files).stdout(Stdio::null()).stderr(Stdio::null()).status()?;
    if status.success() {
        Ok(())
    } else {
        Err(io::Error::other(format!("{program}: {status}")))
    }
}

/// Targets as FASTA, named by their places.
fn write_targets(set: &Set, file: &Path) -> io::Result<()> {
    let mut out = io::BufWriter::new(fs::File::create(file)?);
    for (place, (_, bases, _)) in set.c.targets().expect("a right catalogue").into_iter().enumerate() {
        writeln!(out, ">{place}")?;
        out.write_all(bases)?;
        writeln!(out)?;
    }
    out.flush()
}

/// Reads, one to a line; bowtie numbers them.
fn write_reads(reads: &[Vec<u8>], file: &Path) -> io::Result<()> {
    let mut out = io::BufWriter::new(fs::File::create(file)?);
    for read in reads {
        out.write_all(read)?;
        writeln!(out)?;
    }
    out.flush()
}

/// Lines of read, strand, target, start.
fn placements(file: &Path) -> Vec<Placement> {
    let text = fs::read_to_string(file).expect("what bowtie wrote");
    let number = |word: &str| word.parse().expect("a number");
    let line = |line: &str| {
        let words: Vec<&str> = line.split('\t').collect();
        [number(words[0]), number(words[2]), number(words[3]), u64::from(words[1] == "-")]
    };
    let mut found: Vec<Placement> = text.lines().map(line).collect();
    found.sort_unstable();
    found
}

fn measure(set: &Set, folder: &Path, ours: &mut [Placement]) -> io::Result<bool> {
    let file = |name: &str| -> PathBuf { folder.join(name) };
    let (targets, index, reads, one, found) = (file("targets.fa"), file("index"), file("reads"), file("one"), file("found"));
    write_targets(set, &targets)?;
    write_reads(&set.reads, &reads)?;
    write_reads(&set.reads[..1], &one)?;
    let mut times: [Vec<f64>; 4] = Default::default();
    let exact = ["-v", "0", "-a", "-p", "1", "-r"];
    let silent: Vec<&str> = exact.iter().copied().chain(["--suppress", "1,2,3,4,5,6,7,8"]).collect();
    for _ in 0..3 {
        timed(&mut times[0], || call("bowtie-build", &["-q"], &[&targets, &index]))?;
        timed(&mut times[1], || call("bowtie", &exact, &[&index, &reads, &found]))?;
        timed(&mut times[2], || call("bowtie", &exact, &[&index, &one, &file("first")]))?;
        timed(&mut times[3], || call("bowtie", &silent, &[&index, &reads, Path::new("/dev/null")]))?;
    }
    let [build, map, load, unwritten] = times.each_mut().map(|t| median(t));
    println!("  bowtie    building {build:.3} s, files read and written; mapping {map:.3} s, of it loading {load:.3} s, lines {:.3} s", (map - unwritten).max(0.0));
    let theirs = placements(&found);
    ours.sort_unstable();
    let equal = ours.iter().zip(&theirs).filter(|(a, b)| a == b).count();
    println!("  bowtie    placements equal: {equal} of {}, ours {}", theirs.len(), ours.len());
    Ok(theirs == ours)
}

/// Whether bowtie's placements are ours; true where it is not installed.
pub fn run(set: &Set, ours: &mut [Placement]) -> bool {
    if !installed() {
        println!("  bowtie    not installed");
        return true;
    }
    let folder = std::env::temp_dir().join(format!("bowtie-{}", std::process::id()));
    fs::create_dir_all(&folder).expect("a folder for bowtie's files");
    let same = measure(set, &folder, ours);
    fs::remove_dir_all(&folder).expect("the folder to be removed");
    same.unwrap_or_else(|e| panic!("{e}"))
}
