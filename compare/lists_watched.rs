//! What a random list knows of 1016 and of the node while it is made, so that its calls can aim at them.

use std::collections::VecDeque;

use crate::calls::{Call, Cause};

/// An entry as it should be if the calls are obeyed.
#[derive(Clone, Copy)]
pub struct Entry {
    pub value: u32,
    /// Until it expires; none while it waits for a first heartbeat.
    pub left: Option<u32>,
}

impl Entry {
    const EMPTY: Entry = Entry { value: 0, left: None };

    pub fn node(self) -> u8 {
        (self.value >> 16) as u8
    }

    fn is_used(self) -> bool {
        self.value as u16 != 0 && (1..=127).contains(&self.node())
    }

    fn take_heartbeat(&mut self, node: u8) {
        if self.is_used() && self.node() == node {
            self.left = Some(self.value & 0xFFFF);
        }
    }
}

/// What the entries and the node should be, and calls that are to come.
pub struct Watches {
    pub entries: [Entry; 4],
    pub loss: bool,
    pub stopped: bool,
    error_behaviour: u8,
    pub to_come: VecDeque<Call>,
    /// How many calls on the entries follow each other, with few others between.
    pub calls: usize,
}

impl Watches {
    pub fn none() -> Watches {
        Watches {
            entries: [Entry::EMPTY; 4],
            loss: false,
            stopped: false,
            error_behaviour: 0,
            to_come: VecDeque::new(),
            calls: 0,
        }
    }

    pub fn are_busy(&self) -> bool {
        self.calls > 0 || !self.to_come.is_empty()
    }

    fn lose(&mut self) {
        self.stopped |= !self.loss && self.error_behaviour == 2;
        self.loss = true;
    }

    fn write(&mut self, at: usize, value: u32) {
        let entry = Entry { value, left: None };
        let others = (0..4).filter(|other| *other != at).map(|other| self.entries[other]);
        let taken = others.filter(|other| other.is_used()).any(|other| other.node() == entry.node());
        if value >> 24 == 0 && !(entry.is_used() && taken) {
            self.entries[at] = entry;
        }
    }

    fn elapse(&mut self, milliseconds: u32) {
        for at in 0..4 {
            let Some(left) = self.entries[at].left else {
                continue;
            };
            self.entries[at].left = left.checked_sub(milliseconds).filter(|left| *left > 0);
            if self.entries[at].left.is_none() {
                self.lose();
            }
        }
    }

    fn command(&mut self, code: u8) {
        match code {
            1 | 128 => self.stopped = false,
            2 => self.stopped = true,
            129 | 130 => {
                let (to_come, calls) = (std::mem::take(&mut self.to_come), self.calls);
                *self = Watches { to_come, calls, ..Watches::none() };
            }
            _ => {}
        }
    }

    /// A call of the list on a node of this number.
    pub fn take(&mut self, call: &Call, number: u8) {
        match call {
            Call::Write { index, sub, data } if !self.stopped => match (*index, *sub, data.part()) {
                (0x1016, 1..=4, [a, b, c, d]) => {
                    self.write(usize::from(*sub) - 1, u32::from_le_bytes([*a, *b, *c, *d]));
                }
                (0x1029, 1, [behaviour @ 0..=2]) => self.error_behaviour = *behaviour,
                _ => {}
            },
            Call::Heartbeat { node } => self.entries.iter_mut().for_each(|entry| entry.take_heartbeat(*node)),
            Call::Elapsed { milliseconds } => self.elapse(*milliseconds),
            Call::Raise(Cause::CommunicationLoss) => self.lose(),
            Call::Clear(Cause::CommunicationLoss) => self.loss = false,
            Call::Command { code, node } if *node == 0 || *node == number => self.command(*code),
            _ => {}
        }
    }
}
