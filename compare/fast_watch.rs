//! Item 5 of document 02 for speed: an entry is due at a moment of one clock, so that elapsed time is one sum
//! and one comparison, and the entry of a node is found by one load.

const NOBODY: u8 = 4;
/// Where an entry waits for a first heartbeat.
const NEVER: u64 = u64::MAX;

#[derive(Clone, Copy)]
pub struct Watches {
    values: [u32; 4],
    /// By node, the used entry that names it; no node above 127 has one.
    entries: [u8; 128],
    /// All milliseconds since the entries were last empty.
    clock: u64,
    due: [u64; 4],
    /// The first of them.
    next: u64,
}

/// The node of a used entry.
fn named(value: u32) -> Option<usize> {
    let node = (value >> 16) as usize;
    (value & 0xFFFF != 0 && node.wrapping_sub(1) < 127).then_some(node)
}

impl Watches {
    pub const EMPTY: Watches =
        Watches { values: [0; 4], entries: [NOBODY; 128], clock: 0, due: [NEVER; 4], next: NEVER };

    pub fn value(&self, entry: usize) -> u32 {
        self.values[entry]
    }

    /// The abort code where the value is refused, else 0. No bit above the node is set.
    pub fn write(&mut self, entry: usize, value: u32) -> u32 {
        let (before, after) = (named(self.values[entry]), named(value));
        if let Some(node) = after {
            let holder = self.entries[node];
            if holder != NOBODY && usize::from(holder) != entry {
                return 0x0604_0043;
            }
        }
        if let Some(node) = before {
            self.entries[node] = NOBODY;
        }
        if let Some(node) = after {
            self.entries[node] = entry as u8;
        }
        self.values[entry] = value;
        self.set_due(entry, NEVER);
        0
    }

    pub fn heartbeat(&mut self, node: u8) {
        let entry = self.entries.get(usize::from(node)).copied().unwrap_or(NOBODY);
        if entry != NOBODY {
            let time = self.values[usize::from(entry)] & 0xFFFF;
            self.set_due(usize::from(entry), self.clock + u64::from(time));
        }
    }

    /// Whether an entry becomes due in these milliseconds.
    pub fn expire(&mut self, milliseconds: u32) -> bool {
        self.clock += u64::from(milliseconds);
        if self.clock < self.next {
            return false;
        }
        for entry in 0..4 {
            if self.due[entry] <= self.clock {
                self.set_due(entry, NEVER);
            }
        }
        true
    }

    fn set_due(&mut self, entry: usize, due: u64) {
        self.due[entry] = due;
        self.next = self.due.into_iter().min().unwrap_or(NEVER);
    }
}
