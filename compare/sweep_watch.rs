//! Watches that leave nothing out: every node against every heartbeat, every time one short and reached, sums
//! at the ends of 16 and 32 bits, every pair of entries, every set of entries that is due in each state of the
//! node, and every kind of call between a heartbeat and the end of a time.

use crate::calls::{request_bytes, Call, Cause, Lent};
use crate::lists_objects::Object;
use crate::All;

const LOSS: Cause = Cause::CommunicationLoss;
/// What the tests of one entry set it to: node 5, ten milliseconds.
const OF_NODE_5: u32 = 0x0005_000A;

fn write(index: u16, sub: u8, value: u32, size: usize) -> Call {
    let mut data = [0; 24];
    data[..4].copy_from_slice(&value.to_le_bytes());
    Call::Write { index, sub, data: Lent::new(data, size) }
}

fn entry(sub: u8, value: u32) -> Call {
    write(0x1016, sub, value, 4)
}

fn elapsed(milliseconds: u32) -> Call {
    Call::Elapsed { milliseconds }
}

fn command(code: u8, node: u8) -> Call {
    Call::Command { code, node }
}

fn download(sub: u8, value: u32) -> Call {
    let request = request_bytes([0; 24], 0x23, (0x1016, sub), value.to_le_bytes());
    Call::Request { request: Lent::new(request, 8), reply: Lent::new([0xA7; 24], 8) }
}

const REGISTER: Call = Call::Read { index: 0x1001, sub: 0 };

fn play_all(devices: &mut All, calls: &[Call], done: &mut u64) {
    for call in calls {
        devices.play(*call, (0, *done));
        *done += 1;
    }
}

/// Each node as an entry's, and each as the one that sends.
fn every_node(done: &mut u64) {
    let mut devices = All::create(1);
    for node in 0..=u8::MAX {
        let sub = 1 + node % 4;
        play_all(&mut devices, &[entry(sub, u32::from(node) << 16 | 7)], done);
        for sending in 0..=u8::MAX {
            let calls = [Call::Heartbeat { node: sending }, elapsed(7), REGISTER, Call::Clear(LOSS)];
            play_all(&mut devices, &calls, done);
        }
        play_all(&mut devices, &[entry(sub, 0)], done);
    }
}

fn every_time(done: &mut u64) {
    let mut devices = All::create(1);
    for time in 1..=u32::from(u16::MAX) {
        let start = [entry(1, 5 << 16 | time), Call::Heartbeat { node: 5 }];
        let to_its_end = [elapsed(time - 1), REGISTER, elapsed(1), REGISTER, Call::Clear(LOSS)];
        play_all(&mut devices, &start, done);
        play_all(&mut devices, &to_its_end, done);
    }
}

/// A first part of a time, then one that may be too long for a sum of 16 or 32 bits.
fn every_end_of_a_sum(done: &mut u64) {
    let mut devices = All::create(1);
    for time in [1u32, 2, 255, 256, 32_767, 32_768, 65_534, 65_535] {
        for first in [0, 1, time / 2, time - 1] {
            let left = time.wrapping_sub(first);
            let near = [0, 1, left.wrapping_sub(1), left, left.wrapping_add(1), 0xFFFF, 0x1_0000, 0x1_0001];
            let far = [0x1_0000 - first, u32::MAX - first, first.wrapping_neg(), u32::MAX - 1, u32::MAX];
            let powers = (16..32).map(|bit| 1 << bit);
            for second in near.into_iter().chain(far).chain(powers) {
                let start = [entry(4, 127 << 16 | time), Call::Heartbeat { node: 127 }, elapsed(first)];
                let end = [elapsed(second), REGISTER, elapsed(u32::MAX), REGISTER, Call::Clear(LOSS)];
                play_all(&mut devices, &start, done);
                play_all(&mut devices, &end, done);
            }
        }
    }
}

/// Two entries, or one twice, with values that are used, not used, and refused.
fn every_pair(objects: &[Object], done: &mut u64) {
    let unused = [0, 0x0005_0000, 0x0000_000A, 0x0080_000A, 0x0085_000A, 0x00FF_000A];
    let used = [OF_NODE_5, 0x0005_FFFF, 0x0001_0001, 0x007F_0001];
    let mut values: Vec<u32> = unused.into_iter().chain(used).collect();
    values.extend((24..32).map(|bit| OF_NODE_5 | 1 << bit));
    values.extend([0x0100_0000, u32::MAX]);
    for (one, before) in (1..=4).flat_map(|one| values.iter().map(move |before| (one, before))) {
        for (other, after) in (1..=4).flat_map(|other| values.iter().map(move |after| (other, after))) {
            let mut devices = All::create(5);
            let start = [entry(one, *before), Call::Heartbeat { node: 5 }, elapsed(9), REGISTER];
            play_all(&mut devices, &start, done);
            play_all(&mut devices, &[entry(other, *after), elapsed(1), REGISTER], done);
            devices.read_back(objects, (0, *done));
        }
    }
}

/// Nothing that a fault shows stands at its default; of these entries those in `due` have the shorter time.
fn watching(due: u8, error_behaviour: u32) -> Vec<Call> {
    let mut calls = vec![command(1, 5), write(0x6200, 1, 0x35, 1), write(0x6207, 1, 0x0F, 1)];
    calls.extend([write(0x6206, 1, 0x3C, 1), write(0x6202, 1, 0x11, 1), write(0x6411, 1, 0x1234, 2)]);
    calls.extend([write(0x6444, 1, 77, 4), write(0x1029, 1, error_behaviour, 1)]);
    for sub in 1..=4 {
        let time = if due >> (sub - 1) & 1 == 1 { 10 } else { 20 };
        calls.extend([entry(sub, u32::from(sub) << 16 | time), Call::Heartbeat { node: sub }]);
    }
    calls
}

/// Each set of entries due at once, in each state, with each cause present and each 1029:1.
fn every_expiry(objects: &[Object], done: &mut u64) {
    for code in [1, 128, 2] {
        for (causes, error_behaviour) in (0..4).flat_map(|causes| (0..3).map(move |value| (causes, value))) {
            for due in 0..16 {
                let mut devices = All::create(5);
                play_all(&mut devices, &watching(due, error_behaviour), done);
                play_all(&mut devices, &[command(code, 0)], done);
                for (bit, cause) in [(0, LOSS), (1, Cause::InternalFailure)] {
                    if causes >> bit & 1 == 1 {
                        play_all(&mut devices, &[Call::Raise(cause)], done);
                    }
                }
                for calls in [[elapsed(9), elapsed(1)], [Call::Clear(LOSS), elapsed(10)]] {
                    play_all(&mut devices, &calls, done);
                    devices.read_back(objects, (0, *done));
                }
            }
        }
    }
}

/// What may come between a heartbeat and the end of its entry's time.
fn disturbances() -> Vec<Call> {
    let mut calls = Vec::new();
    for sub in 0..=5 {
        for value in [OF_NODE_5, 0x0005_000B, 0, 0x0006_000A, 0x0105_000A] {
            calls.extend([entry(sub, value), download(sub, value), write(0x1016, sub, value, 3)]);
        }
    }
    calls.extend((0..=u8::MAX).map(|node| Call::Heartbeat { node }));
    for node in [0, 4, 5, 127, 128] {
        calls.extend([1, 2, 3, 128, 129, 130].map(|code| command(code, node)));
    }
    for cause in [LOSS, Cause::InternalFailure] {
        calls.extend([Call::Raise(cause), Call::Clear(cause)]);
    }
    calls.extend((0..=3).map(|value| write(0x1029, 1, value, 1)));
    calls.extend([REGISTER, Call::Read { index: 0x1016, sub: 2 }, elapsed(0)]);
    calls
}

fn every_disturbance(objects: &[Object], done: &mut u64) {
    for sub in 1..=4 {
        for disturbance in disturbances() {
            let mut devices = All::create(5);
            let start = [command(1, 0), entry(sub, OF_NODE_5), Call::Heartbeat { node: 5 }, elapsed(9)];
            play_all(&mut devices, &start, done);
            play_all(&mut devices, &[disturbance], done);
            devices.read_back(objects, (0, *done));
            play_all(&mut devices, &[elapsed(1), REGISTER], done);
            devices.read_back(objects, (0, *done));
        }
    }
}

/// How many calls there were.
pub fn sweep_watch(objects: &[Object]) -> u64 {
    let mut done = 0;
    every_node(&mut done);
    every_time(&mut done);
    every_end_of_a_sum(&mut done);
    every_pair(objects, &mut done);
    every_expiry(objects, &mut done);
    every_disturbance(objects, &mut done);
    done
}
