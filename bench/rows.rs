//! The lists that are measured: a row for each kind of call, and a realistic mix.

use crate::calls::{request_bytes, Call, Cause, Lent, Message};
use crate::lists::Random;

pub struct Row {
    pub name: &'static str,
    pub calls: fn(&mut Random) -> Vec<Call>,
    /// How many lines have their filter on, from line 1 up in sixteens.
    pub filtered: u8,
}

pub const LENGTH: usize = 400;
/// A fresh device's. Lines that change at this pace differ at every sample, and settle at each third.
const FILTER_LENGTH: usize = 3;

pub const ROWS: [Row; 29] = [
    // An empty list stands for creates, which start from no device.
    Row { name: "create", calls: |_| Vec::new(), filtered: 16 },
    Row { name: "read lines", calls: read_lines, filtered: 16 },
    Row { name: "read channels", calls: read_channels, filtered: 16 },
    Row { name: "read 6422:1", calls: |_| vec![Call::Read { index: 0x6422, sub: 1 }; LENGTH], filtered: 16 },
    Row { name: "read refused", calls: |_| vec![Call::Read { index: 0x6500, sub: 1 }; LENGTH], filtered: 16 },
    Row { name: "write lines", calls: write_lines, filtered: 16 },
    Row { name: "write channels", calls: write_channels, filtered: 16 },
    Row { name: "sample, few change", calls: |random| samples(random, 2, 1), filtered: 16 },
    Row { name: "sample, all change", calls: |random| samples(random, 128, 1), filtered: 16 },
    Row { name: "sample, few, no filter", calls: |random| samples(random, 2, 1), filtered: 0 },
    Row { name: "sample, all, no filter", calls: |random| samples(random, 128, 1), filtered: 0 },
    Row { name: "sample, few count", calls: |random| samples(random, 2, FILTER_LENGTH), filtered: 128 },
    Row { name: "sample, all count", calls: |random| samples(random, 128, FILTER_LENGTH), filtered: 128 },
    Row { name: "command", calls: commands, filtered: 16 },
    Row { name: "raise and clear", calls: |_| causes(), filtered: 16 },
    Row { name: "drive", calls: |_| vec![drive(); LENGTH], filtered: 16 },
    Row { name: "receive, 8 entries", calls: |random| receives(random, Message::One), filtered: 16 },
    Row { name: "receive, one entry", calls: |random| receives(random, Message::Two), filtered: 16 },
    Row { name: "transmit, 8 entries", calls: |_| vec![transmit(Message::One); LENGTH], filtered: 16 },
    Row { name: "transmit, one entry", calls: |_| vec![transmit(Message::Two); LENGTH], filtered: 16 },
    Row { name: "upload lines", calls: uploads, filtered: 16 },
    Row { name: "download lines", calls: |random| downloads(random, true), filtered: 16 },
    Row { name: "download, size untold", calls: |random| downloads(random, false), filtered: 16 },
    Row { name: "upload aborted", calls: |_| vec![request(0x40, 0x6500, 1, [0; 4]); LENGTH], filtered: 16 },
    Row { name: "read and write 1016", calls: |_| watch_entries(), filtered: 16 },
    Row { name: "heartbeat", calls: |_| heartbeats(), filtered: 16 },
    Row { name: "elapsed, none due", calls: |_| vec![Call::Elapsed { milliseconds: 0 }; LENGTH], filtered: 16 },
    Row { name: "expire and clear", calls: |_| expiries(), filtered: 16 },
    Row { name: "mix", calls: mix, filtered: 16 },
];

/// Operational, analogue events on, a filter on the first lines, a delta of 10; eight bytes mapped for
/// message 1 and one for message 2, byte by byte, so that a full frame has as many entries as it can; four nodes
/// watched, each with a time of a second.
pub fn set_up(filtered: u8) -> Vec<Call> {
    let mut calls = vec![Call::Command { code: 1, node: 0 }, write(0x6423, 0, 1, 1)];
    calls.extend((1..=filtered / 16).map(|sub| write(0x6103, sub, 0xFFFF, 2)));
    calls.extend((1..=16).map(|sub| write(0x6426, sub, 10, 4)));
    for (index, mapped) in [(0x1600, 0x6200), (0x1A00, 0x6000)] {
        calls.extend((1..=8).map(|sub| write(index, sub, mapped << 16 | u32::from(sub) << 8 | 8, 4)));
        calls.push(write(index, 0, 8, 1));
        calls.push(write(index + 1, 1, mapped << 16 | 1 << 8 | 8, 4));
        calls.push(write(index + 1, 0, 1, 1));
    }
    calls.extend((1..=4).map(|sub| write(0x1016, sub, watched(sub), 4)));
    calls.extend((1..=4).map(|node| Call::Heartbeat { node }));
    calls
}

fn write(index: u16, sub: u8, value: u32, size: usize) -> Call {
    let mut data = [0; 24];
    data[..4].copy_from_slice(&value.to_le_bytes());
    Call::Write { index, sub, data: Lent::new(data, size) }
}

/// One of a row's four windows: index, last sub-index, size, and the ones of its values.
fn window(random: &mut Random, narrow: u16, wide: u16) -> (u16, usize, usize, u32) {
    let choices = [
        (narrow, 128, 1, 1),
        (wide, 16, 1, 0xFF),
        (wide + 0x100, 8, 2, 0xFFFF),
        (wide + 0x120, 4, 4, u32::MAX),
    ];
    choices[random.below(4)]
}

/// Inputs, a mask, outputs and an output setting by turns.
const LINES: [(u16, u16); 4] = [(0x6020, 0x6000), (0x6050, 0x6006), (0x6220, 0x6200), (0x6270, 0x6208)];

fn read_lines(random: &mut Random) -> Vec<Call> {
    let one = |n: usize| {
        let (narrow, wide) = LINES[n % 4];
        let (index, last, _, _) = window(random, narrow, wide);
        Call::Read { index, sub: 1 + random.below(last) as u8 }
    };
    (0..LENGTH).map(one).collect()
}

fn write_lines(random: &mut Random) -> Vec<Call> {
    let one = |n: usize| {
        let (narrow, wide) = LINES[1 + n % 3];
        let (index, last, size, ones) = window(random, narrow, wide);
        write(index, 1 + random.below(last) as u8, random.next() as u32 & ones, size)
    };
    (0..LENGTH).map(one).collect()
}

fn read_channels(random: &mut Random) -> Vec<Call> {
    let one = |n: usize| {
        let (index, last) = [(0x6401, 16), (0x6424, 16), (0x6428, 16), (0x6411, 8)][n % 4];
        Call::Read { index, sub: 1 + random.below(last) as u8 }
    };
    (0..LENGTH).map(one).collect()
}

fn write_channels(random: &mut Random) -> Vec<Call> {
    let one = |n: usize| {
        let (index, last, size) = [(0x6421, 16, 1), (0x6424, 16, 4), (0x6428, 16, 4), (0x6411, 8, 2)][n % 4];
        write(index, 1 + random.below(last) as u8, random.next() as u32 & 0x1F, size)
    };
    (0..LENGTH).map(one).collect()
}

/// Of 128 lines and 16 channels `changes` lines change at every `pace`th sample, and one channel for each
/// eight of them at each.
fn samples(random: &mut Random, changes: usize, pace: usize) -> Vec<Call> {
    let mut lines = [0u8; 24];
    let mut channels = [0i16; 24];
    let one = |at: usize| {
        for n in (0..changes).filter(|_| at % pace == 0) {
            let line = if changes == 128 { n } else { random.below(128) };
            lines[line / 8] ^= 1 << (line % 8);
        }
        for _ in 0..changes.div_ceil(8) {
            channels[random.below(16)] = random.next() as i16;
        }
        Call::Sample {
            digital: Lent::new(lines, 16),
            analogue: Lent::new(channels, 16),
            events: Lent::new([0; 24], 16),
        }
    };
    (0..LENGTH).map(one).collect()
}

fn commands(random: &mut Random) -> Vec<Call> {
    let codes = [1, 1, 1, 2, 128, 130, 1, 129];
    (0..LENGTH).map(|n| Call::Command { code: codes[n % 8], node: random.below(2) as u8 }).collect()
}

fn causes() -> Vec<Call> {
    let four = [
        Call::Raise(Cause::InternalFailure),
        Call::Raise(Cause::CommunicationLoss),
        Call::Clear(Cause::CommunicationLoss),
        Call::Clear(Cause::InternalFailure),
    ];
    (0..LENGTH).map(|n| four[n % 4]).collect()
}

fn drive() -> Call {
    Call::Drive { lines: Lent::new([0; 24], 16), channels: Lent::new([0; 24], 8) }
}

/// Each entry of 1016 written, node and time as they are, and read.
fn watch_entries() -> Vec<Call> {
    let one = |n: usize| {
        let sub = 1 + (n / 2 % 4) as u8;
        if n % 2 == 0 { write(0x1016, sub, watched(sub), 4) } else { Call::Read { index: 0x1016, sub } }
    };
    (0..LENGTH).map(one).collect()
}

/// A node for an entry, and a second.
fn watched(sub: u8) -> u32 {
    u32::from(sub) << 16 | 1000
}

/// Of the four nodes that are watched, and of one that is not.
fn heartbeats() -> Vec<Call> {
    (0..LENGTH).map(|n| Call::Heartbeat { node: 1 + (n % 5) as u8 }).collect()
}

/// A heartbeat, the time by which that entry expires, and the loss cleared: two other calls for each expiry.
fn expiries() -> Vec<Call> {
    let three = |n: usize| match n % 3 {
        0 => Call::Heartbeat { node: 1 + (n / 3 % 4) as u8 },
        1 => Call::Elapsed { milliseconds: 1000 },
        _ => Call::Clear(Cause::CommunicationLoss),
    };
    (0..LENGTH).map(three).collect()
}

/// Frames of eight bytes, of which a mapping of one entry reads the first.
fn receives(random: &mut Random, message: Message) -> Vec<Call> {
    let one = |_| {
        let frame = Lent::new(std::array::from_fn(|_| random.next() as u8), 8);
        Call::Receive { message, frame }
    };
    (0..LENGTH).map(one).collect()
}

fn transmit(message: Message) -> Call {
    Call::Transmit { message, frame: Lent::new([0; 24], 8) }
}

fn request(first: u8, index: u16, sub: u8, data: [u8; 4]) -> Call {
    let request = Lent::new(request_bytes([0; 24], first, (index, sub), data), 8);
    Call::Request { request, reply: Lent::new([0; 24], 8) }
}

/// The reads of lines as requests, so that both rows can be compared.
fn uploads(random: &mut Random) -> Vec<Call> {
    let one = |call| match call {
        Call::Read { index, sub } => request(0x40, index, sub, [0; 4]),
        other => other,
    };
    read_lines(random).into_iter().map(one).collect()
}

/// The writes of lines, as above.
fn downloads(random: &mut Random, size_told: bool) -> Vec<Call> {
    let one = |call| match call {
        Call::Write { index, sub, data } => {
            let size = data.part().len();
            let mut bytes = [0; 4];
            bytes[..size].copy_from_slice(data.part());
            let first = if size_told { 0x23 | (4 - size as u8) << 2 } else { 0x22 };
            request(first, index, sub, bytes)
        }
        other => other,
    };
    write_lines(random).into_iter().map(one).collect()
}

/// A sample and a drive every tick, a write every tenth, a read every fourth.
fn mix(random: &mut Random) -> Vec<Call> {
    let samples = samples(random, 2, 1);
    let writes = [write_lines(random), write_channels(random)];
    let reads = [read_lines(random), read_channels(random)];
    let mut calls = Vec::new();
    for tick in 0..LENGTH {
        calls.push(samples[tick]);
        if tick % 4 == 0 {
            calls.push(reads[tick / 4 % 2][tick]);
        }
        if tick % 10 == 0 {
            calls.push(writes[tick / 10 % 2][tick]);
        }
        calls.push(drive());
    }
    calls
}
