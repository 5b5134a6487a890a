//! Requests that leave nothing out: every first byte on entries of every kind, every index, every length of
//! both buffers from 0 to 24, in each state of the node.

use crate::calls::{request_bytes, Call, Cause, Lent};
use crate::lists_objects::Object;
use crate::{sample_of, All};

/// Readable, writable, read-only and absent ones, of each size, and those that change more than an entry.
const ENTRIES: [(u16, u8); 31] = [
    (0x6000, 1),
    (0x6100, 8),
    (0x6120, 4),
    (0x6401, 2),
    (0x1000, 0),
    (0x1001, 0),
    (0x6200, 0),
    (0x6200, 1),
    (0x6300, 2),
    (0x6320, 1),
    (0x6220, 3),
    (0x6411, 8),
    (0x6443, 1),
    (0x6444, 1),
    (0x6422, 0),
    (0x6422, 1),
    (0x6005, 0),
    (0x1016, 0),
    (0x1016, 1),
    (0x1016, 3),
    (0x1029, 1),
    (0x2003, 0),
    (0x1600, 0),
    (0x1600, 1),
    (0x1601, 0),
    (0x1601, 1),
    (0x1A00, 8),
    (0x6201, 1),
    (0x0062, 1),
    (0x6200, 17),
    (0x1600, 9),
];
/// A small number with other bytes beyond it, a good entry of a mapping, and all bytes the highest.
const DATA: [[u8; 4]; 3] = [[1, 2, 3, 0], [0x08, 0x02, 0x00, 0x62], [0xFF; 4]];

fn write(index: u16, sub: u8, value: u32, size: usize) -> Call {
    let mut data = [0; 24];
    data[..4].copy_from_slice(&value.to_le_bytes());
    Call::Write { index, sub, data: Lent::new(data, size) }
}

fn request(first: u8, entry: (u16, u8), data: [u8; 4]) -> Call {
    let request = Lent::new(request_bytes([0x5A; 24], first, entry, data), 8);
    // No byte of it is one that a reply has here.
    Call::Request { request, reply: Lent::new([0xA7; 24], 8) }
}

fn samples() -> [Call; 3] {
    let analogue = Lent::new(std::array::from_fn(|at| 100 + at as i16), 16);
    let events = Lent::new([0; 24], 16);
    let digital = Lent::new([0xC3; 24], 16);
    [Call::Sample { digital, analogue, events }, sample_of(0x0123_4567), sample_of(u128::MAX << 5)]
}

/// Nothing stands at its default: lines settled and counting, outputs, error values, source bits, mappings, a
/// watch.
fn set_up() -> All {
    let mut devices = All::create(5);
    let mut calls = vec![Call::Command { code: 1, node: 5 }, write(0x6423, 0, 1, 1), write(0x2003, 0, 9, 1)];
    calls.extend([write(0x6122, 1, 0x0F0F, 4), write(0x6322, 1, 0xF0, 4), write(0x6207, 1, 0x3C, 1)]);
    calls.extend((1..=4).map(|sub| write(0x6320, sub, 0x1357_9BDF, 4)));
    calls.extend([write(0x6411, 8, 0x8001, 2), write(0x6444, 1, 77, 4), write(0x1029, 1, 2, 1)]);
    calls.extend([
        write(0x1600, 1, 0x6200_0108, 4),
        write(0x1600, 0, 1, 1),
        write(0x1601, 2, 0x6411_0110, 4),
    ]);
    calls.extend([
        write(0x1A00, 8, 0x6401_0110, 4),
        write(0x1A01, 1, 0x6000_0108, 4),
        write(0x1A01, 0, 1, 1),
    ]);
    // Of the node that the first of DATA names, so that another entry cannot have it.
    calls.extend([write(0x1016, 3, 0x0003_03E8, 4), Call::Heartbeat { node: 3 }]);
    calls.push(Call::Elapsed { milliseconds: 10 });
    calls.extend(samples());
    calls.push(write(0x6123, 1, 0xFFFF, 4));
    // The third is as the lines have settled, and would end their counts.
    calls.extend(&samples()[..2]);
    for call in calls {
        assert_eq!(devices.play(call, (0, 0)).1.number, 0);
    }
    devices
}

/// Operational, pre-operational and stopped, each without and with a cause of fault.
fn in_each_state() -> Vec<All> {
    let mut all = Vec::new();
    for code in [1, 128, 2] {
        let mut devices = set_up();
        devices.play(Call::Command { code, node: 0 }, (0, 0));
        all.push(devices.clone());
        devices.play(Call::Raise(Cause::InternalFailure), (0, 0));
        all.push(devices);
    }
    all
}

/// Each on a device of its own, which is then asked for everything; the widest windows tell of every line.
fn every_first_byte(all: &[All], objects: &[Object]) -> u64 {
    let narrow = |object: &Object| matches!((object.index, object.last), (0x6000..=0x6328, 8 | 16 | 128));
    let objects: Vec<Object> = objects.iter().filter(|object| !narrow(object)).copied().collect();
    let mut calls = 0;
    for before in all {
        for (entry, data) in ENTRIES.iter().flat_map(|entry| DATA.map(|data| (*entry, data))) {
            for first in 0..=u8::MAX {
                let mut devices = before.clone();
                devices.play(request(first, entry, data), (0, calls));
                devices.read_back(&objects, (0, calls));
                calls += 1;
            }
        }
    }
    calls
}

/// An upload, and downloads of every size and of none, one after the other on the same devices.
fn every_index(all: &[All], objects: &[Object]) -> u64 {
    let mut calls = 0;
    for before in all {
        let mut devices = before.clone();
        for index in 0..=u16::MAX {
            let listed = objects.iter().any(|object| object.index == index);
            for sub in (0..=u8::MAX).filter(|sub| listed || *sub < 2) {
                for first in [0x40, 0x22, 0x2F, 0x2B, 0x27, 0x23] {
                    devices.play(request(first, (index, sub), [1, 0, 0, 0]), (0, calls));
                    calls += 1;
                }
            }
        }
        devices.read_back(objects, (0, calls));
    }
    calls
}

/// Of the request and of the reply buffer, for each kind of request.
fn every_length(all: &[All], objects: &[Object]) -> u64 {
    let mut calls = 0;
    for before in all {
        let mut devices = before.clone();
        for (first, of_request, of_reply) in lengths() {
            let bytes = request_bytes([0x5A; 24], first, (0x6200, 1), [of_request as u8, 1, 2, 3]);
            let (request, reply) = (Lent::new(bytes, of_request), Lent::new([0xA7; 24], of_reply));
            devices.play(Call::Request { request, reply }, (0, calls));
            calls += 1;
        }
        devices.read_back(objects, (0, calls));
    }
    calls
}

fn lengths() -> impl Iterator<Item = (u8, usize, usize)> {
    let firsts = [0x40, 0x22, 0x2F, 0x80, 0x00, 0x21];
    let pairs = (0..=24).flat_map(|request| (0..=24).map(move |reply| (request, reply)));
    pairs.flat_map(move |(request, reply)| firsts.map(|first| (first, request, reply)))
}

pub fn sweep_requests(objects: &[Object]) -> u64 {
    let all = in_each_state();
    every_first_byte(&all, objects) + every_index(&all, objects) + every_length(&all, objects)
}
