//! The books of an audit by the rules: what is kept of its reads, as the numbers of its state.

use crate::audits::{Settings, CANDIDATE_LIMIT, COMPLETE, REMAP_DISABLED};
use crate::model_audit::{Counters, STATE_NUMBERS};
use crate::theirs::{Answer, INDETERMINATE};

/// What an audit keeps from call to call, beside the counters.
#[derive(Debug, Clone, PartialEq, Eq)]
pub struct Books {
    pub settings: Settings,
    pub last: Option<u64>,
    /// Six states of S, of R1, of R2.
    pub table: [u64; 18],
    pub reads: [u64; 3],
    pub totals: [u64; 3],
    pub indeterminate: bool,
}

impl Books {
    pub fn fresh(settings: Settings) -> Self {
        Self { settings, last: None, table: [0; 18], reads: [0; 3], totals: [0; 3], indeterminate: false }
    }

    pub fn numbers(&self) -> Vec<u64> {
        let s = &self.settings;
        let (accepted, ordinal) = (u64::from(self.last.is_some()), self.last.unwrap_or(0));
        let mut numbers = vec![1, s.mode.into(), s.remap.into(), s.floor.into(), s.limit, accepted, ordinal];
        numbers.extend(self.table);
        numbers.extend(self.reads);
        numbers.extend(self.totals);
        numbers.push(self.indeterminate.into());
        numbers
    }

    /// None for numbers that no state has: 26.
    pub fn of(numbers: &[u64]) -> Option<Self> {
        let &[layout, mode, remap, floor, limit, accepted, ordinal, ref rest @ ..] = numbers else { return None };
        let right = numbers.len() == STATE_NUMBERS && layout == 1 && mode <= 1 && remap <= 1 && floor <= 255 && accepted <= 1;
        if !right || (accepted == 0 && ordinal != 0) || rest[24] > 1 {
            return None;
        }
        Some(Self {
            settings: Settings { mode: mode as u8, remap: remap as u8, floor: floor as u8, limit },
            last: (accepted == 1).then_some(ordinal),
            table: rest[..18].try_into().unwrap(),
            reads: rest[18..21].try_into().unwrap(),
            totals: rest[21..24].try_into().unwrap(),
            indeterminate: rest[24] == 1,
        })
    }

    /// Roles of the mode.
    pub fn roles(&self) -> &'static [u8] {
        if self.settings.mode == 0 {
            &[0]
        } else {
            &[1, 2]
        }
    }

    /// The states that a sheet shows.
    pub fn states(&self) -> std::ops::RangeInclusive<usize> {
        if self.settings.remap == 1 {
            1..=5
        } else {
            0..=0
        }
    }

    pub fn status(&self) -> u64 {
        match (self.settings.remap, self.indeterminate) {
            (0, _) => REMAP_DISABLED,
            (_, true) => CANDIDATE_LIMIT,
            _ => COMPLETE,
        }
    }

    /// A read more; None where a count would pass 2^64 - 1.
    pub fn book(&mut self, counters: &mut Counters, role: u8, answer: &Answer) -> Option<()> {
        let raise = |n: &mut u64| n.checked_add(1).map(|raised| *n = raised);
        raise(&mut self.reads[role as usize])?;
        raise(&mut self.table[6 * role as usize + answer.state as usize])?;
        self.indeterminate |= answer.state == INDETERMINATE;
        let mut targets: Vec<usize> = answer.groups.iter().map(|g| g[0] as usize).collect();
        for &target in &targets {
            raise(&mut self.totals[0])?;
            raise(&mut counters[0][target])?;
        }
        // a read with one group is a single, one with several counts once for each of its targets
        let column = if targets.len() == 1 { 1 } else { 2 };
        targets.sort_unstable();
        targets.dedup();
        for target in targets {
            raise(&mut self.totals[column])?;
            raise(&mut counters[column][target])?;
        }
        Some(())
    }

    /// Rows of the sheet against the reads by role, and sums over all targets against the totals.
    pub fn apart(&self, counters: &Counters) -> bool {
        let differs = |numbers: &[u64], total: u64| numbers.iter().map(|&n| u128::from(n)).sum::<u128>() != u128::from(total);
        let role = |&r: &u8| differs(&self.table[6 * r as usize..][self.states()], self.reads[r as usize]);
        self.roles().iter().any(role) || (0..3).any(|i| differs(&counters[i], self.totals[i]))
    }
}
