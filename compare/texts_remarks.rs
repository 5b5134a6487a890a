//! The part of a random list that aims at the words in parentheses: entries of every kind read and written in every
//! way, writes that do less than their writer may think, and every refusal of a read and a write.

use std::collections::VecDeque;

use crate::calls::{Call, Cause};
use crate::lists::Random;
use crate::lists_mappings::MAPPINGS;
use crate::lists_objects::{objects, Object, DIGITAL_OBJECTS};
use crate::paper::Device;
use crate::paper_node::State;
use crate::texts_remarks_calls::{
    fault_turned, mapping_refused, mapping_used, odd_command, odd_request, of_a_wrong_size, read,
    sample_of_any, sources_read, watched_twice, write,
};
use crate::texts_remarks_values::{allowed_value, entry_of, is_read_only, refused_value, some_lines};

// Rows of the table, counted from 0.
const OUTPUT: usize = 6;
const FILTER_MASK: usize = 10;
/// Output, often, then output polarity, error mode and error value.
const OUTPUT_ROWS: [usize; 7] = [OUTPUT, OUTPUT, OUTPUT, OUTPUT, 7, 8, 9];
/// How many objects the analogue channels have, and where 6411, 6443 and 6444 begin.
const CHANNEL_OBJECTS: usize = 10;
const OUTPUT_CHANNELS: usize = DIGITAL_OBJECTS + 7;

/// Calls that are to come, in order.
pub struct Remarks {
    to_come: VecDeque<Call>,
    objects: Vec<Object>,
}

impl Remarks {
    pub fn none() -> Remarks {
        Remarks { to_come: VecDeque::new(), objects: objects() }
    }

    /// The next call, on a device as it is now.
    pub fn call(&mut self, device: &Device, random: &mut Random) -> Call {
        if device.node.state == State::Stopped {
            match random.below(100) {
                0..50 => return Call::Command { code: random.pick(&[1, 128]), node: 0 },
                50..70 => return odd_request(self.any_object(random).index, random),
                _ => {}
            }
        }
        if self.to_come.is_empty() {
            let calls = match random.below(100) {
                0..46 => self.on_an_entry(random),
                46..68 => self.doing_less(device, random),
                68..88 => self.refused(random),
                88..91 => sources_read(device, random),
                91..94 => vec![odd_command(device, random)],
                94..96 => vec![odd_request(self.any_object(random).index, random)],
                96 | 97 => vec![Call::Command { code: 2, node: 0 }],
                _ => vec![Call::Clear(Cause::InternalFailure), Call::Clear(Cause::CommunicationLoss)],
            };
            self.to_come.extend(calls);
        }
        self.to_come.pop_front().expect("some call comes")
    }

    /// The 1-bit entries of a row as often as its wider ones together.
    fn digital_object(&self, row: usize, random: &mut Random) -> Object {
        let wider = 1 + random.below(3);
        self.objects[4 * row + random.pick(&[0, wider])]
    }

    fn any_object(&self, random: &mut Random) -> Object {
        random.pick(&self.objects)
    }

    /// An entry read, or written with a value that it takes.
    fn on_an_entry(&self, random: &mut Random) -> Vec<Call> {
        let (_, others) = self.objects.split_at(DIGITAL_OBJECTS);
        let (channels, others) = others.split_at(CHANNEL_OBJECTS);
        let object = match random.below(50) {
            0..21 => self.digital_object(random.below(11), random),
            21..42 => random.pick(channels),
            42..46 => random.pick(&others[..others.len() - MAPPINGS.len()]),
            46 | 47 => return vec![read(self.any_object(random).index, 0, random)],
            _ => return mapping_used(random),
        };
        let sub = entry_of(object, random);
        let mut calls = Vec::new();
        if object.index == 0x6401 {
            calls.push(sample_of_any(random));
        } else if !is_read_only(object.index, sub) && random.chance(70) {
            calls.push(write(object, sub, allowed_value(object.index, random), random));
        }
        if is_read_only(object.index, sub) || calls.is_empty() || random.chance(40) {
            calls.push(read(object.index, sub, random));
        }
        calls
    }

    /// A write of an output, of its polarity or of what it does in fault, mostly in fault; of outputs mostly at lines
    /// whose mask was just written.
    fn doing_less(&self, device: &Device, random: &mut Random) -> Vec<Call> {
        let mut calls = fault_turned(device, random.chance(65), random);
        let row = random.pick(&OUTPUT_ROWS);
        let object = match random.chance(30) {
            true => self.objects[OUTPUT_CHANNELS + random.below(3)],
            false => self.digital_object(row, random),
        };
        let sub = entry_of(object, random);
        if object.index == self.objects[4 * OUTPUT].index {
            let lines = random.pick(&[0, 0, 1]);
            calls.push(write(self.objects[4 * FILTER_MASK], sub, lines, random));
        } else if let Some(mask) = self.mask_of(object) {
            let some = some_lines(8 * object.size, random);
            calls.push(write(mask, sub, random.pick(&[0, some, some, u32::MAX]), random));
        }
        calls.push(write(object, sub, allowed_value(object.index, random), random));
        calls
    }

    /// The output filter mask of the same lines, for an object of the row output.
    fn mask_of(&self, output: Object) -> Option<Object> {
        let outputs = &self.objects[4 * OUTPUT..4 * OUTPUT + 4];
        let column = outputs.iter().position(|object| object.index == output.index)?;
        Some(self.objects[4 * FILTER_MASK + column])
    }

    /// A read or a write that is refused for its index, sub-index, access, size or value.
    fn refused(&self, random: &mut Random) -> Vec<Call> {
        let object = self.any_object(random);
        match random.below(20) {
            0..7 => vec![self.past_the_last(random)],
            7..12 => {
                let size = random.pick(&[1, 2, 4]);
                let object = self.picked(|object| object.size == size, random);
                vec![of_a_wrong_size(object, entry_of(object, random), random)]
            }
            12 => vec![write(object, 0, 1, random)],
            13 => vec![self.read_or_write(Object { index: object.index ^ 0x0800, ..object }, 1, random)],
            14..17 => {
                let (object, sub, value) = refused_value(random);
                vec![write(object, sub, value, random)]
            }
            17 => watched_twice(random),
            _ => mapping_refused(&self.objects, random),
        }
    }

    fn picked(&self, is_one: impl Fn(&Object) -> bool, random: &mut Random) -> Object {
        let some: Vec<Object> = self.objects.iter().copied().filter(is_one).collect();
        random.pick(&some)
    }

    /// Each last sub-index as often, and half of the time the next one.
    fn past_the_last(&self, random: &mut Random) -> Call {
        let last = random.pick(&[0, 1, 4, 8, 16, 128]);
        let object = self.picked(|object| object.last == last, random);
        let any = last + 1 + random.below(255 - usize::from(last)) as u8;
        self.read_or_write(object, random.pick(&[last + 1, any]), random)
    }

    fn read_or_write(&self, object: Object, sub: u8, random: &mut Random) -> Call {
        match random.chance(40) {
            true => read(object.index, sub, random),
            false => write(object, sub, random.next() as u32, random),
        }
    }
}
