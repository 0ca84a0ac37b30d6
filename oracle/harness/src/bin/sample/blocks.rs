//! Cases behind each other, each its length in two bytes and its bytes.

use std::{fs, path::Path};

/// No case goes over the end of a block of so many bytes; the program reads a whole number of blocks at a time.
pub struct Blocks {
    size: usize,
    /// The fewest bytes that a case has.
    least: usize,
    /// The case of so many bytes that fills a block up.
    filler: fn(usize) -> Vec<u8>,
    bytes: Vec<u8>,
}

impl Blocks {
    pub fn new(size: usize, least: usize, filler: fn(usize) -> Vec<u8>) -> Self {
        Self { size, least, filler, bytes: Vec::new() }
    }

    /// Whether a block was filled up before the case.
    pub fn push(&mut self, case: &[u8]) -> bool {
        let room = self.size - self.bytes.len() % self.size;
        let full = room < case.len() + 2 + self.least + 2;
        if full {
            self.put(&(self.filler)(room - 2));
        }
        self.put(case);
        full
    }

    fn put(&mut self, case: &[u8]) {
        self.bytes.extend(two(case.len()));
        self.bytes.extend(case);
    }
}

/// A number of two bytes, the low one first.
pub fn two(n: usize) -> [u8; 2] {
    u16::try_from(n).expect("a number of two bytes").to_le_bytes()
}

/// Input and expected output, in the folder of their program.
pub fn write(folder: &str, input: &Blocks, output: &str) {
    fs::write(Path::new(folder).join("stdin"), &input.bytes).expect("stdin is written");
    fs::write(Path::new(folder).join("stdout"), output).expect("stdout is written");
    println!("{} bytes in, {} bytes out", input.bytes.len(), output.len());
}
