//! Reads and writes asked for in every way, and short sequences of calls that aim at certain words.

use crate::calls::{request_bytes, Call, Cause, Lent, Message};
use crate::lists::Random;
use crate::lists_entries::{good_entry, odd_entry};
use crate::lists_mappings::MAPPINGS;
use crate::lists_objects::Object;
use crate::paper::Device;
use crate::paper_objects::object;

const UPLOAD: u8 = 0x40;
const DOWNLOAD_OF_UNTOLD_SIZE: u8 = 0x22;

fn request(first: u8, entry: (u16, u8), data: [u8; 4]) -> Call {
    let request = Lent::new(request_bytes([0; 24], first, entry, data), 8);
    Call::Request { request, reply: Lent::new([0; 24], 8) }
}

pub fn read(index: u16, sub: u8, random: &mut Random) -> Call {
    match random.chance(50) {
        true => request(UPLOAD, (index, sub), [0; 4]),
        false => Call::Read { index, sub },
    }
}

/// With the value's first bytes, as many as the object's entries have, or so it is told.
pub fn write(object: Object, sub: u8, value: u32, random: &mut Random) -> Call {
    let is_count = MAPPINGS.contains(&object.index) && sub == 0;
    let size = if is_count { 1 } else { object.size };
    if random.chance(35) {
        return request(DOWNLOAD_OF_UNTOLD_SIZE, (object.index, sub), value.to_le_bytes());
    }
    write_of_size(object.index, sub, value, size, random)
}

/// Told in a request only where it has 1 to 4 bytes.
fn write_of_size(index: u16, sub: u8, value: u32, size: usize, random: &mut Random) -> Call {
    let mut data = [0; 24];
    data[..4].copy_from_slice(&value.to_le_bytes());
    match size {
        1..=4 if random.chance(50) => {
            let first = DOWNLOAD_OF_UNTOLD_SIZE | 1 | (4 - size as u8) << 2;
            request(first, (index, sub), value.to_le_bytes())
        }
        _ => Call::Write { index, sub, data: Lent::new(data, size) },
    }
}

pub fn of_a_wrong_size(named: Object, sub: u8, random: &mut Random) -> Call {
    let right = object(named.index).map_or(0, |object| object.size(sub));
    let size = random.pick(&[0, 1, 1, 2, 2, 3, 3, 4, 4, 5]);
    let size = if size == right { right ^ 1 } else { size };
    write_of_size(named.index, sub, random.next() as u32, size, random)
}

/// Mostly none that is an upload or an expedited download; at times with a buffer too long or too short.
pub fn odd_request(index: u16, random: &mut Random) -> Call {
    let any = random.next() as u8;
    let first = random.pick(&[any, 0x80, 0x80 | any & 0x1F, 0x00, 0x20, 0x21, 0x60, 0xC0]);
    let bytes = request_bytes([0; 24], first, (index, 1), [any; 4]);
    let length = random.below(20);
    let (request, reply) = random.pick(&[(8, 8), (8, 8), (8, 8), (8, length), (length, 8)]);
    Call::Request { request: Lent::new(bytes, request), reply: Lent::new([0xFF; 24], reply) }
}

/// Both causes end, or one begins that leaves the node able to write.
pub fn fault_turned(device: &Device, fault: bool, random: &mut Random) -> Vec<Call> {
    let node = &device.node;
    let causes = [Cause::InternalFailure, Cause::CommunicationLoss];
    match (node.in_fault(), fault) {
        (true, false) => causes.map(Call::Clear).to_vec(),
        (false, true) if node.error_behaviour == 2 => vec![Call::Raise(Cause::InternalFailure)],
        (false, true) => vec![Call::Raise(random.pick(&causes))],
        _ => Vec::new(),
    }
}

/// Mostly one for another node, else one that there is not.
pub fn odd_command(device: &Device, random: &mut Random) -> Call {
    let own = usize::from(device.node.number);
    let another = 1 + (own + random.below(126)) % 127;
    let any = random.next() as u8;
    let code = random.pick(&[1, 2, 128, 129, 130, any]);
    let node = random.pick(&[another as u8, another as u8, another as u8, device.node.number]);
    Call::Command { code: if node == device.node.number { any } else { code }, node }
}

pub fn sample_of_any(random: &mut Random) -> Call {
    let analogue = std::array::from_fn(|_| random.next() as i16 >> random.below(16));
    sample(analogue)
}

fn sample(analogue: [i16; 24]) -> Call {
    Call::Sample {
        digital: Lent::new([0; 24], 16),
        analogue: Lent::new(analogue, 16),
        events: Lent::new([0; 24], 16),
    }
}

/// Some inputs move far from their references, then 6422:1 is read, at times once more.
pub fn sources_read(device: &Device, random: &mut Random) -> Vec<Call> {
    let mut analogue = [0; 24];
    for (number, input) in analogue.iter_mut().zip(&device.analogue_inputs) {
        *number = input.last;
    }
    for _ in 0..random.pick(&[1, 1, 2, 4, 16]) {
        analogue[random.below(16)] = random.next() as i16;
    }
    let enable = Object { index: 0x6423, last: 0, size: 1 };
    let mut calls = vec![read(0x6422, 1, random), write(enable, 0, 1, random)];
    calls.extend([Call::Command { code: 1, node: 0 }, sample(analogue), read(0x6422, 1, random)]);
    calls
}

fn mapping_object(mapping: usize) -> Object {
    Object { index: MAPPINGS[mapping], last: 8, size: 4 }
}

/// A count of 0, an entry, then another count, or frames that it is for.
pub fn mapping_used(random: &mut Random) -> Vec<Call> {
    let mapping = random.below(8);
    let object = mapping_object(mapping);
    let sub = 1 + random.below(8) as u8;
    let bytes = random.pick(&[0, 1, 2, 4]);
    let mut calls = vec![write(object, 0, 0, random)];
    calls.push(write(object, sub, good_entry(mapping / 4, bytes, random), random));
    match random.below(3) {
        0 => calls.push(read(object.index, random.pick(&[0, sub]), random)),
        1 => calls.push(Call::Transmit { message: Message::ALL[mapping % 4], frame: Lent::new([0; 24], 8) }),
        _ => {
            let count = random.pick(&[u32::from(sub), 1, 8]);
            let frame = Lent::new([0xFF; 24], random.below(5));
            calls.extend([write(object, 0, count, random), Call::Command { code: 1, node: 0 }]);
            calls.push(Call::Receive { message: Message::ALL[mapping % 4], frame });
        }
    }
    calls
}

/// An entry under a count that is not 0, one that cannot be mapped, or a count too high.
pub fn mapping_refused(objects: &[Object], random: &mut Random) -> Vec<Call> {
    let mapping = random.below(8);
    let object = mapping_object(mapping);
    let sub = 1 + random.below(8) as u8;
    let (zero, one) = (write(object, 0, 0, random), write(object, 0, 1, random));
    match random.below(4) {
        0 | 1 => vec![one, write(object, sub, 0, random)],
        2 => vec![zero, write(object, sub, odd_entry(mapping / 4, objects, random), random)],
        _ => vec![write(object, 0, 9 + random.below(247) as u32, random)],
    }
}

/// Two entries of the watch for one node.
pub fn watched_twice(random: &mut Random) -> Vec<Call> {
    let watch = Object { index: 0x1016, last: 4, size: 4 };
    let node = 1 + random.below(127) as u32;
    let first = random.below(4) as u8;
    let second = (first + 1 + random.below(3) as u8) % 4;
    let time = 1 + random.below(1000) as u32;
    [first, second].map(|at| write(watch, at + 1, node << 16 | time, random)).to_vec()
}
