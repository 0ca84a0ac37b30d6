//! Writes samples of the Rust's answers as the input and the expected output of two programs of the gate, `test_map_rust` and
//! `test_audit_rust`: sample FOLDER FOLDER.

mod audit_inputs;
mod audit_kinds;
mod audit_lines;
mod audits;
mod blocks;
mod maps;

fn main() {
    let mut folders = std::env::args().skip(1);
    let mut folder = || folders.next().expect("sample FOLDER FOLDER");
    maps::write(&folder());
    audits::write(&folder());
}
