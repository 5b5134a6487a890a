//! How the elapsed calls of random lists met the entries of 1016.

use std::fmt;

/// What an elapsed call meets: what is left of each started entry's time, whether the loss is present, 1029:1.
pub struct Met {
    pub left: [Option<u64>; 4],
    pub loss: bool,
    pub error_behaviour: u8,
}

#[derive(Default)]
pub struct WatchTally {
    /// Entries of which one millisecond was left, none, or less than none.
    one_short: u64,
    exactly: u64,
    past: u64,
    /// Calls in which one entry expired, two, three, four.
    at_once: [u64; 4],
    /// Calls that raised the loss, by what 1029:1 was.
    raised: [u64; 3],
}

impl WatchTally {
    pub fn take(&mut self, milliseconds: u32, met: &Met) {
        let milliseconds = u64::from(milliseconds);
        let mut expired = 0;
        for left in met.left.into_iter().flatten() {
            self.one_short += u64::from(milliseconds + 1 == left);
            self.exactly += u64::from(milliseconds == left);
            self.past += u64::from(milliseconds > left);
            expired += usize::from(milliseconds >= left);
        }
        if expired > 0 {
            self.at_once[expired - 1] += 1;
            self.raised[usize::from(met.error_behaviour)] += u64::from(!met.loss);
        }
    }
}

impl fmt::Display for WatchTally {
    fn fmt(&self, f: &mut fmt::Formatter<'_>) -> fmt::Result {
        let WatchTally { one_short, exactly, past, at_once: [one, two, three, four], raised } = self;
        write!(f, "elapsed times one short of an entry's {one_short}, exactly {exactly}, past {past}, ")?;
        write!(f, "expiries of one entry {one}, of two at once {two}, of three {three}, of four {four} ")?;
        write!(f, "(raised with 1029:1 = 0 {}, with 1 {}, with 2 {})", raised[0], raised[1], raised[2])
    }
}
