//! What is lent to a call, and what is said of a difference.

// ---- a lent buffer: its numbers before a call, and words on both sides that nobody may write

pub const GUARD: usize = 4;

pub fn pattern(i: usize) -> u64 {
    0x5a5a_0000_0000_0000 + i as u64
}

#[derive(Debug, Clone)]
pub struct Buffer(Vec<u64>);

impl Buffer {
    pub fn new(n: usize) -> Self {
        Self((0..n + 2 * GUARD).map(pattern).collect())
    }

    pub fn lent(&mut self) -> &mut [u64] {
        let n = self.0.len();
        &mut self.0[GUARD..n - GUARD]
    }

    pub fn numbers(&self) -> &[u64] {
        &self.0[GUARD..self.0.len() - GUARD]
    }

    /// A number at a place, if there is one.
    pub fn put(&mut self, at: usize, number: u64) {
        if let Some(n) = self.lent().get_mut(at) {
            *n = number;
        }
    }

    /// The same numbers in another length: fewer of them, or the pattern behind them.
    pub fn resized(&self, n: usize) -> Self {
        let mut other = Self::new(n);
        other.lent().iter_mut().zip(self.numbers()).for_each(|(to, from)| *to = *from);
        other
    }

    /// These numbers and no others, and the words on both sides untouched.
    pub fn is(&self, numbers: &[u64]) -> bool {
        let n = self.0.len();
        self.numbers() == numbers && (0..GUARD).chain(n - GUARD..n).all(|i| self.0[i] == pattern(i))
    }

    /// These numbers at the front, zeros up to a place, and behind it what was there.
    pub fn holds<'a>(&self, front: impl Iterator<Item = &'a u64>, zeros: usize) -> bool {
        let mut at = GUARD;
        for &x in front {
            if self.0.get(at) != Some(&x) {
                return false;
            }
            at += 1;
        }
        while at < GUARD + zeros {
            if self.0[at] != 0 {
                return false;
            }
            at += 1;
        }
        (0..GUARD).chain(at..self.0.len()).all(|i| self.0[i] == pattern(i))
    }

    pub fn untouched(&self) -> bool {
        self.holds([].iter(), 0)
    }
}

pub fn unless(same: bool, what: &str) -> Result<(), String> {
    if same {
        Ok(())
    } else {
        Err(what.into())
    }
}

pub fn shown(bytes: &[u8]) -> String {
    let cut = &bytes[..bytes.len().min(2000)];
    let more = if cut.len() < bytes.len() { format!(".. ({} bytes)", bytes.len()) } else { String::new() };
    format!("\"{}\"{more}", cut.escape_ascii())
}
