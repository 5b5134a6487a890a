//! The part of a random list that Item 1 asks for: mappings set well and badly, and frames of every
//! length, mostly near the one that the mapping wants.

use std::collections::VecDeque;

use crate::calls::{Call, Lent, Message};
use crate::lists::Source;
use crate::lists_entries::{good_entry, odd_entry, sizes_within};

/// 1600 to 1603, then 1A00 to 1A03.
pub const MAPPINGS: [u16; 8] = [0x1600, 0x1601, 0x1602, 0x1603, 0x1A00, 0x1A01, 0x1A02, 0x1A03];

/// Calls that are to come, in order, and how many bytes each mapping has if they are obeyed.
pub struct Plans {
    to_come: VecDeque<Call>,
    bytes: [usize; 8],
    /// Entries as they were last set, so that counts can be moved over them.
    sizes: [[usize; 8]; 8],
}

impl Plans {
    pub fn new() -> Plans {
        Plans { to_come: VecDeque::new(), bytes: [0; 8], sizes: [[0; 8]; 8] }
    }

    /// After a reset.
    pub fn forget(&mut self) {
        self.bytes = [0; 8];
        self.sizes = [[0; 8]; 8];
    }

    /// A count is written; one that asks for too much is refused and changes nothing.
    fn count(&mut self, mapping: usize, count: usize) {
        let bytes = self.sizes[mapping].iter().take(count).sum();
        if count <= 8 && bytes <= 8 {
            self.bytes[mapping] = bytes;
        }
    }
}

impl Source {
    /// The next call of what is planned, or one that uses, reads or disturbs a mapping.
    pub fn mapping_call(&mut self) -> Call {
        if let Some(call) = self.plans.to_come.pop_front() {
            return call;
        }
        match self.random.below(100) {
            0..14 => {
                self.plan_a_mapping();
                self.mapping_call()
            }
            14..46 => self.receive(),
            46..72 => self.transmit(),
            72..84 => self.mapping_read(),
            84..92 => self.count_moved(),
            _ => self.mapping_write(),
        }
    }

    pub fn something_is_planned(&self) -> bool {
        !self.plans.to_come.is_empty()
    }

    fn mapping_entry_write(&mut self, mapping: usize, sub: u8, value: u32) -> Call {
        let right = if sub == 0 { 1 } else { 4 };
        let length = if self.random.chance(2) { self.random.below(7) } else { right };
        let index =
            if self.random.chance(2) { self.index_near(MAPPINGS[mapping]) } else { MAPPINGS[mapping] };
        self.write_of(index, sub, value, length)
    }

    /// Count 0, the entries, the count, mostly start, then frames; each step is left out or spoiled at times.
    fn plan_a_mapping(&mut self) {
        let mapping = self.random.below(8);
        let sizes = self.planned_sizes();
        let mut calls = Vec::new();
        if self.random.chance(93) {
            calls.push(self.mapping_entry_write(mapping, 0, 0));
        }
        calls.extend(self.planned_entries(mapping, &sizes));
        let count = self.planned_count(sizes.len());
        calls.push(self.mapping_entry_write(mapping, 0, count as u32));
        // What an earlier plan left beyond these entries stays.
        self.plans.sizes[mapping][..sizes.len()].copy_from_slice(&sizes);
        self.plans.count(mapping, 0);
        self.plans.count(mapping, count);
        if self.random.chance(60) {
            calls.push(Call::Command { code: 1, node: self.random.pick(&[0, self.number()]) });
        }
        if self.random.chance(15) {
            calls.push(self.entry_while_mapped(mapping));
        }
        for _ in 0..self.random.below(9) {
            calls.push(self.frame_for(mapping));
        }
        // Sending leaves the source bits.
        if mapping >= 4 && self.random.chance(40) {
            calls.push(Call::Read { index: 0x6422, sub: 1 });
        }
        self.plans.to_come.extend(calls);
    }

    /// Mostly what a frame can hold, up to exactly eight bytes; at times more.
    fn planned_sizes(&mut self) -> Vec<usize> {
        let short = 1 + self.random.below(8);
        let room = self.random.pick(&[8, 8, 8, 8, short, short, 9, 10, 12, 20, 32]);
        sizes_within(room, &mut self.random)
    }

    fn planned_entries(&mut self, mapping: usize, sizes: &[usize]) -> Vec<Call> {
        let mut calls = Vec::new();
        let odd = self.random.pick(&[0, 0, 10, 30, 80]);
        for (at, size) in sizes.iter().enumerate() {
            if self.random.chance(odd) {
                let value = odd_entry(mapping / 4, &self.objects, &mut self.random);
                calls.push(self.mapping_entry_write(mapping, at as u8 + 1, value));
            }
            let value = good_entry(mapping / 4, *size, &mut self.random);
            calls.push(self.mapping_entry_write(mapping, at as u8 + 1, value));
        }
        // In any order, so that no entry depends on those before it.
        if calls.len() > 1 && self.random.chance(20) {
            let other = self.random.below(calls.len());
            calls.swap(0, other);
        }
        calls
    }

    fn planned_count(&mut self, entries: usize) -> usize {
        match self.random.below(20) {
            0 => entries.saturating_sub(1),
            1 => entries + 1,
            2 => self.random.pick(&[8, 8, 9, 10, 64, 255]),
            3 => self.random.below(9),
            _ => entries,
        }
    }

    /// An entry at a time when the count should not be 0: good, odd, the value 0, or of a wrong size.
    fn entry_while_mapped(&mut self, mapping: usize) -> Call {
        let sub = 1 + self.random.below(8) as u8;
        let size = self.random.pick(&[0, 1, 2, 4]);
        let good = good_entry(mapping / 4, size, &mut self.random);
        let odd = odd_entry(mapping / 4, &self.objects, &mut self.random);
        let value = self.random.pick(&[good, odd, 0]);
        if self.random.chance(20) {
            let data = Lent::new(self.bytes(), self.random.pick(&[0, 1, 2, 3, 5, 8]));
            return Call::Write { index: MAPPINGS[mapping], sub, data };
        }
        self.mapping_entry_write(mapping, sub, value)
    }

    /// The count alone, over what stands there, without passing 0.
    fn count_moved(&mut self) -> Call {
        let mapping = self.random.below(8);
        let some = self.random.below(9);
        let count = self.random.pick(&[some, some, some, 8, 9]);
        self.plans.count(mapping, count);
        self.mapping_entry_write(mapping, 0, count as u32)
    }

    fn mapping_write(&mut self) -> Call {
        let mapping = self.random.below(8);
        match self.random.below(4) {
            0 => self.entry_while_mapped(mapping),
            1 => {
                let (sub, value) = (self.random.next() as u8, self.random.next() as u32);
                self.mapping_entry_write(mapping, sub, value)
            }
            2 => {
                let value = odd_entry(mapping / 4, &self.objects, &mut self.random);
                let sub = self.random.pick(&[1, 2, 7, 8, 9]);
                self.mapping_entry_write(mapping, sub, value)
            }
            _ => {
                let count = self.random.next() as u8;
                self.mapping_entry_write(mapping, 0, u32::from(count))
            }
        }
    }

    fn mapping_read(&mut self) -> Call {
        let any = self.random.next() as u8;
        let entry = 1 + self.random.below(8) as u8;
        let sub = match self.random.below(20) {
            0 => any,
            1 => 9,
            2..6 => 0,
            _ => entry,
        };
        Call::Read { index: self.index_near(MAPPINGS[any as usize % 8]), sub }
    }

    /// Mostly the index itself; else a neighbour, or a communication parameter, which does not exist.
    fn index_near(&mut self, index: u16) -> u16 {
        match self.random.below(25) {
            0 => self.random.pick(&[0x15FF, 0x1604, 0x19FF, 0x1A04]),
            1 => self.random.pick(&[0x1400, 0x1403, 0x1800, 0x1803]),
            _ => index,
        }
    }

    fn frame_for(&mut self, mapping: usize) -> Call {
        let message = Message::ALL[mapping % 4];
        let any = self.random.below(25);
        if mapping >= 4 {
            let length = self.random.pick(&[8, 8, 8, 8, 8, 8, 8, 8, 8, 8, 8, 7, 9, any]);
            return Call::Transmit { message, frame: Lent::new(self.bytes(), length) };
        }
        let right = self.plans.bytes[mapping];
        let short = right.saturating_sub(1);
        let length = self.random.pick(&[right, right, right, right, 8, 8, short, short, right + 1, any]);
        Call::Receive { message, frame: Lent::new(self.bytes(), length) }
    }

    /// One of a direction's four; mostly one that should have entries.
    fn some_mapping(&mut self, direction: usize) -> usize {
        let four = 4 * direction..4 * direction + 4;
        let set: Vec<usize> = four.clone().filter(|mapping| self.plans.bytes[*mapping] > 0).collect();
        if set.is_empty() || self.random.chance(15) {
            return four.start + self.random.below(4);
        }
        self.random.pick(&set)
    }

    pub fn receive(&mut self) -> Call {
        let mapping = self.some_mapping(0);
        self.frame_for(mapping)
    }

    pub fn transmit(&mut self) -> Call {
        let mapping = self.some_mapping(1);
        self.frame_for(mapping)
    }
}
