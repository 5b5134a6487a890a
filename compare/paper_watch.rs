//! Item 5 of document 02, the heartbeat watch: the entries 1016:1 to 1016:4 and what each has added up.

use crate::paper_node::DeviceWide;

/// "Object 1016:1 to 1016:4, four bytes each, default 0".
#[derive(Clone, Copy)]
pub struct Watch {
    pub value: u32,
    /// None before the node's first heartbeat. Wider than both of its parts, so that it never wraps.
    sum: Option<u64>,
}

/// "bits 16 to 23 a node, bits 0 to 15 milliseconds".
fn node_of(value: u32) -> u8 {
    (value >> 16) as u8
}

fn time_of(value: u32) -> u16 {
    value as u16
}

/// "Time 0 or a node outside 1 to 127 means unused."
fn is_used(value: u32) -> bool {
    time_of(value) != 0 && (1..=127).contains(&node_of(value))
}

/// "Two used entries for one node": whether this value would be the second one if it stood at this place.
pub fn node_is_taken(watches: &[Watch; 4], place: usize, value: u32) -> bool {
    let same_node = |watch: &Watch| is_used(watch.value) && node_of(watch.value) == node_of(value);
    let mut others = watches.iter().enumerate().filter(|(other, _)| *other != place);
    is_used(value) && others.any(|(_, watch)| same_node(watch))
}

impl Watch {
    pub fn empty() -> Watch {
        Watch { value: 0, sum: None }
    }

    /// "either reset empties all four."
    pub fn take(&mut self, news: DeviceWide) {
        if let DeviceWide::Command(129 | 130) = news {
            *self = Watch::empty();
        }
    }

    /// "Writing an entry stops its watch", also where the value is the one that stands there.
    pub fn store(&mut self, value: u32) {
        *self = Watch { value, sum: None };
    }

    /// Whether the entry names this node; an unused one names none.
    pub fn is_for(&self, node: u8) -> bool {
        is_used(self.value) && node_of(self.value) == node
    }

    /// "Watching starts with that node's first heartbeat."; "a heartbeat sets its sum to 0, and one from a
    /// node no entry names does nothing."
    pub fn heartbeat(&mut self, node: u8) {
        if self.is_for(node) {
            self.sum = Some(0);
        }
    }

    /// Whether the entry raises communication loss.
    pub fn elapsed(&mut self, milliseconds: u32) -> bool {
        // "elapsed milliseconds, which each started entry adds up".
        let Some(sum) = self.sum.map(|sum| sum + u64::from(milliseconds)) else {
            return false;
        };
        // "An entry whose sum reaches or passes its time [..] waits for a first heartbeat again."
        let expired = sum >= u64::from(time_of(self.value));
        self.sum = (!expired).then_some(sum);
        expired
    }

    /// What is missing of a started entry's time, for whoever counts how elapsed calls meet it.
    pub fn left(&self) -> Option<u64> {
        self.sum.map(|sum| u64::from(time_of(self.value)) - sum)
    }
}
