//! What one whole audit is given, right calls and calls with flaws.

use harness::audits::{Fragment, Read, Settings};
use harness::lent::LentFragments;
use harness::{Catalogue, Columns};

/// One thing that is lent otherwise at a call.
#[derive(Debug, Clone)]
pub enum Flaw {
    /// Other columns than the index.
    Stale(Columns),
    /// Other targets than the opening's, at a fragment, a list or `finish`.
    Targets(Catalogue),
    StateLength(usize),
    /// A place and its number.
    State(usize, u64),
    /// A column and its length.
    CountersLength(usize, usize),
    /// A column, a target, its number.
    Counter(usize, usize, u64),
    AnswerLength(usize),
    /// At the opening.
    Settings(Settings),
    /// Quality marks of a fragment's two reads.
    Marks([u8; 2]),
    /// How many reads a fragment is said to have.
    Count(usize),
    /// A list, and how many numbers there are for its rows.
    List(LentFragments, usize),
    /// At `apply_to_unitigs`: the targets now, the sheet.
    Now(Catalogue),
    SheetLength(usize),
    Sheet(usize, u64),
}

/// A number of the state or of the counters that is changed before a call, and stays.
#[derive(Debug, Clone, Copy)]
pub enum Change {
    State(usize, u64),
    Counter(usize, usize, u64),
}

/// A fragment's call, and those before it with flaws: these get copies, so that nothing of them stays.
#[derive(Debug, Clone, Default)]
pub struct Call {
    pub fragment: Fragment,
    /// Which reads the plain audit gets turned round.
    pub turns: [bool; 2],
    /// Numbers of entries that the plain audit is lent.
    pub plain_entries: usize,
    pub changes: Vec<Change>,
    pub flawed: Vec<Vec<Flaw>>,
}

/// A list of the fragments from the last one's end up to a place.
#[derive(Debug, Clone, Default)]
pub struct Piece {
    pub until: usize,
    pub entries: usize,
    pub flawed: Vec<Vec<Flaw>>,
}

#[derive(Debug, Clone)]
pub struct Audit {
    pub c: Catalogue,
    pub settings: Settings,
    pub flawed_opening: Vec<Vec<Flaw>>,
    pub calls: Vec<Call>,
    pub pieces: Vec<Piece>,
    pub changes: Vec<Change>,
    pub flawed_finish: Vec<Vec<Flaw>>,
    pub flawed_apply: Vec<Vec<Flaw>>,
}

/// Bases with each letter complemented in its case, and qualities, both reversed.
fn turned(read: &Read) -> Read {
    let complement = |b: &u8| b"ACGTacgt".iter().position(|x| x == b).map_or(*b, |i| b"TGCAtgca"[i]);
    let bases = read.bases.iter().rev().map(complement).collect();
    let qualities = read.qualities.as_ref().map(|q| q.iter().rev().copied().collect());
    Read { role: read.role, bases, qualities }
}

impl Call {
    /// The fragment as the plain audit gets it.
    pub fn turned(&self) -> Fragment {
        let read = |(i, r): (usize, &Read)| if self.turns.get(i) == Some(&true) { turned(r) } else { r.clone() };
        Fragment { reads: self.fragment.reads.iter().enumerate().map(read).collect(), ..self.fragment.clone() }
    }
}
