//! Item 1 of document 02: receive mappings 1600 to 1603 and transmit mappings 1A00 to 1A03.

use crate::paper_node::DeviceWide;
use crate::paper_objects::{object, Attribute, Object};

#[derive(Clone, Copy, PartialEq)]
pub enum Direction {
    Receive,
    Transmit,
}

/// Four bytes: index, sub-index, bit length, from the high end.
#[derive(Clone, Copy)]
pub struct Entry {
    pub index: u16,
    pub sub: u8,
    pub bits: u8,
}

impl Entry {
    const EMPTY: Entry = Entry { index: 0, sub: 0, bits: 0 };

    fn of(value: u32) -> Entry {
        Entry { index: (value >> 16) as u16, sub: (value >> 8) as u8, bits: value as u8 }
    }

    fn value(self) -> u32 {
        u32::from(self.index) << 16 | u32::from(self.sub) << 8 | u32::from(self.bits)
    }

    /// An entry of 0 moves nothing.
    pub fn is_zero(self) -> bool {
        self.value() == 0
    }

    pub fn bytes(self) -> usize {
        usize::from(self.bits) / 8
    }
}

impl Direction {
    /// Receive takes the output row and 6411, transmit the input row and 6401, of 8 bits and wider.
    fn maps(self, object: Object) -> bool {
        match (self, object) {
            (Direction::Receive, Object::Lines(Attribute::Output, width)) => width >= 8,
            (Direction::Receive, Object::OutputChannel(index)) => index == 0x6411,
            (Direction::Transmit, Object::Lines(Attribute::Input, width)) => width >= 8,
            (Direction::Transmit, Object::InputChannel(index)) => index == 0x6401,
            _ => false,
        }
    }

    /// Present, mappable, and of its own length; sub-index 0 is left out.
    fn takes(self, entry: Entry) -> bool {
        let Some(named) = object(entry.index) else {
            return false;
        };
        let present = entry.sub != 0 && entry.sub <= named.last_sub_index();
        present && self.maps(named) && usize::from(entry.bits) == 8 * named.size(entry.sub)
    }
}

/// The count at sub-index 0, the entries at 1 to 8.
#[derive(Clone, Copy)]
pub struct Mapping {
    count: u8,
    entries: [Entry; 8],
}

impl Mapping {
    pub fn empty() -> Mapping {
        Mapping { count: 0, entries: [Entry::EMPTY; 8] }
    }

    /// Empty when fresh and after reset communication.
    pub fn take(&mut self, news: DeviceWide) {
        if let DeviceWide::Command(129 | 130) = news {
            *self = Mapping::empty();
        }
    }

    pub fn value(&self, sub: u8) -> u32 {
        match sub {
            0 => u32::from(self.count),
            _ => self.entries[usize::from(sub) - 1].value(),
        }
    }

    pub fn store(&mut self, sub: u8, value: u32) {
        match sub {
            0 => self.count = value as u8,
            _ => self.entries[usize::from(sub) - 1] = Entry::of(value),
        }
    }

    /// In the order of the item's parentheses.
    pub fn value_refusal(&self, direction: Direction, sub: u8, value: u32) -> Option<u32> {
        if sub != 0 && self.count != 0 {
            return Some(0x0601_0000);
        }
        if sub != 0 && value != 0 && !direction.takes(Entry::of(value)) {
            return Some(0x0604_0041);
        }
        if sub == 0 && (value > 8 || bits_of(&self.entries[..value as usize]) > 64) {
            return Some(0x0604_0042);
        }
        None
    }

    /// The entries that are mapped, in order.
    pub fn mapped(&self) -> &[Entry] {
        &self.entries[..usize::from(self.count)]
    }

    /// The length of the shortest frame that is obeyed.
    pub fn bytes(&self) -> usize {
        bits_of(self.mapped()) / 8
    }
}

fn bits_of(entries: &[Entry]) -> usize {
    entries.iter().map(|entry| usize::from(entry.bits)).sum()
}
