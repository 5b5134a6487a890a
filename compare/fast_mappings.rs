//! Item 1 of document 02 for speed: what an entry names is found when it is written, the length of a
//! mapping when its count is written, and a frame is one number of 64 bits.

use crate::calls::{Answer, Message};
use crate::fast::{Device, OPERATIONAL};
use crate::fast_kinds::*;

/// The four of receive, then the four of transmit.
pub const MAPPINGS: usize = 8;
pub const FIRST_TRANSMIT: usize = 4;

#[derive(Clone, Copy)]
pub struct Mapping {
    entries: [u32; 8],
    /// What each entry names.
    kinds: [u8; 8],
    count: u8,
    /// Of the entries within the count.
    bytes: u8,
}

/// What an entry says, its index as a kind.
#[derive(Clone, Copy)]
struct Part {
    kind: u8,
    sub: u8,
    bits: u32,
}

fn part(entry: u32, kind: u8) -> Part {
    Part { kind, sub: (entry >> 8) as u8, bits: entry & 0xFF }
}

fn mappable(part: Part, transmit: bool) -> bool {
    let known = match transmit {
        true => matches!(part.kind, INPUT_8..=INPUT_32 | VALUE),
        false => matches!(part.kind, OUTPUT_8..=OUTPUT_32 | OUTPUT_VALUE),
    };
    let (last, size) = SHAPES[usize::from(part.kind)];
    known && (1..=last).contains(&part.sub) && part.bits == 8 * u32::from(size)
}

impl Mapping {
    pub const EMPTY: Mapping = Mapping { entries: [0; 8], kinds: [NONE; 8], count: 0, bytes: 0 };

    /// The value and the size of a sub-index up to 8.
    pub fn read(&self, sub: u8) -> (u32, usize) {
        match sub {
            0 => (u32::from(self.count), 1),
            _ => (self.entries[usize::from(sub - 1)], 4),
        }
    }

    /// The abort code where the value is refused, else 0.
    pub fn write(&mut self, sub: u8, value: u32, transmit: bool) -> u32 {
        if sub == 0 {
            return self.write_count(value);
        }
        if self.count != 0 {
            return 0x0601_0000;
        }
        let kind = kind((value >> 16) as u16);
        if value != 0 && !mappable(part(value, kind), transmit) {
            return 0x0604_0041;
        }
        self.entries[usize::from(sub - 1)] = value;
        self.kinds[usize::from(sub - 1)] = kind;
        0
    }

    fn write_count(&mut self, count: u32) -> u32 {
        let Some(mapped) = self.entries.get(..count as usize) else {
            return 0x0604_0042;
        };
        let bits: u32 = mapped.iter().map(|entry| entry & 0xFF).sum();
        if bits > 64 {
            return 0x0604_0042;
        }
        self.count = count as u8;
        self.bytes = (bits / 8) as u8;
        0
    }

    fn bytes(&self) -> usize {
        usize::from(self.bytes)
    }

    /// Without the entries of 0.
    fn parts(&self) -> impl Iterator<Item = Part> + '_ {
        let entries = self.entries.iter().zip(&self.kinds).take(usize::from(self.count));
        entries.filter(|(entry, _)| **entry != 0).map(|(entry, kind)| part(*entry, *kind))
    }
}

impl Device {
    pub fn obey(&mut self, message: Message, frame: &[u8]) -> Answer {
        let mapping = self.mappings[message as usize];
        let Some(mapped) = frame.get(..mapping.bytes()).filter(|_| self.state == OPERATIONAL) else {
            return Answer::default();
        };
        let mut bytes = [0; 8];
        bytes[..mapped.len()].copy_from_slice(mapped);
        let mut rest = u64::from_le_bytes(bytes);
        for Part { kind, sub, bits } in mapping.parts() {
            // Bits above the entry's are cut off where it is stored.
            match kind {
                OUTPUT_VALUE => self.kept[usize::from(sub - 1)] = rest as i16,
                _ => self.digital_store(kind, sub, rest as u32),
            }
            rest >>= bits;
        }
        Answer::default()
    }

    pub fn send(&self, message: Message, frame: &mut [u8]) -> Answer {
        let Ok(frame) = <&mut [u8; 8]>::try_from(frame) else {
            return Answer::refused(5);
        };
        if self.state != OPERATIONAL {
            return Answer::default();
        }
        let mapping = self.mappings[FIRST_TRANSMIT + message as usize];
        let (mut all, mut start) = (0u64, 0);
        for Part { kind, sub, bits } in mapping.parts() {
            let value = match kind {
                VALUE => u32::from(self.values[usize::from(sub - 1)] as u16),
                _ => self.digital_value(kind, sub),
            };
            all |= u64::from(value) << start;
            start += bits;
        }
        let count = mapping.bytes();
        frame[..count].copy_from_slice(&all.to_le_bytes()[..count]);
        Answer { count, ..Answer::default() }
    }
}
