//! What an implementation tells of itself when it is asked for everything.

use crate::calls::{request_bytes, Answer, Call, Cause, Lent, Machine, Message};
use crate::lists_objects::Object;

/// Answers, and calls with the buffers as they were left.
pub type Told = (Vec<Answer>, Vec<Call>);

/// Counts from 0 to 3 settle at a sample each, higher ones some at a time.
const SHORTER_LENGTHS: [u8; 16] = [224, 192, 160, 128, 96, 64, 48, 32, 24, 19, 17, 16, 16, 16, 16, 16];

fn played<M: Machine>(mut call: Call, device: &mut M, told: &mut Told) {
    told.0.push(call.play(device));
    told.1.push(call);
}

/// What an implementation says of all its entries, outputs, mappings and counts, without being changed by
/// it: a copy is asked for its state, taken out of the stopped one, read, driven, and driven again with no cause
/// present; its watches are timed; then it is started, each message is sent and obeyed, and its lines differ
/// until they settle.
pub fn read_back<M: Machine>(device: &M, objects: &[Object]) -> Told {
    let drive = Call::Drive { lines: Lent::new([0; 24], 16), channels: Lent::new([0; 24], 8) };
    let mut told = (Vec::with_capacity(2000), Vec::new());
    let mut copy = device.clone();
    played(drive, &mut copy, &mut told);
    ask_the_state(&mut copy, &mut told);
    copy.command(128, 0);
    for object in objects {
        for sub in 0..=object.last {
            told.0.push(copy.read(object.index, sub));
        }
    }
    played(drive, &mut copy, &mut told);
    copy.clear(Cause::InternalFailure);
    copy.clear(Cause::CommunicationLoss);
    played(drive, &mut copy, &mut told);
    (1..=4).for_each(|sub| time_a_watch(&copy, sub, &mut told));
    copy.command(1, 0);
    for message in Message::ALL {
        let bytes = std::array::from_fn(|at| 0x5A ^ (at as u8) << 4 ^ message as u8);
        played(Call::Transmit { message, frame: Lent::new(bytes, 8) }, &mut copy, &mut told);
        played(Call::Receive { message, frame: Lent::new(bytes, 8) }, &mut copy, &mut told);
        played(drive, &mut copy, &mut told);
    }
    count_on(&mut copy, &mut told);
    told
}

/// No entry reads the state, but a stopped node leaves a request without a reply, and one that is not operational
/// sends nothing. Neither call changes the device.
fn ask_the_state<M: Machine>(copy: &mut M, told: &mut Told) {
    let request = Lent::new(request_bytes([0; 24], 0x40, (0x1001, 0), [0; 4]), 8);
    played(Call::Request { request, reply: Lent::new([0xA5; 24], 8) }, copy, told);
    for message in Message::ALL {
        played(Call::Transmit { message, frame: Lent::new([0xA5; 24], 8) }, copy, told);
    }
}

/// No entry reads a count, so filtered lines differ under ever shorter lengths: when one settles tells about
/// what it was.
fn count_on<M: Machine>(copy: &mut M, told: &mut Told) {
    let mut lines = [0; 24];
    for (sub, byte) in (1..=16).zip(&mut lines) {
        let settled = copy.read(0x6000, sub).value ^ copy.read(0x6002, sub).value;
        *byte = !settled as u8;
    }
    let (analogue, events) = (Lent::new([0; 24], 16), Lent::new([0; 24], 16));
    let sample = Call::Sample { digital: Lent::new(lines, 16), analogue, events };
    for length in SHORTER_LENGTHS {
        told.0.push(copy.write(0x2003, 0, &[length]));
        played(sample, copy, told);
        told.0.extend((1..=4).map(|sub| copy.read(0x6120, sub)));
    }
}

/// No entry reads a sum, so the entry is left alone, and how long it takes to expire is found bit by bit: one
/// more than `passed` in the end, or for ever where it waits for a first heartbeat.
fn time_a_watch<M: Machine>(copy: &M, sub: u8, told: &mut Told) {
    let mut alone = copy.clone();
    // Not stopped by the loss, so that it can be read.
    alone.write(0x1029, 1, &[1]);
    for other in (1..=4).filter(|other| *other != sub) {
        told.0.push(alone.write(0x1016, other, &[0; 4]));
    }
    let mut passed = 0;
    for bit in (0..=16).rev() {
        let mut later = alone.clone();
        told.0.push(later.elapsed(passed + (1 << bit)));
        let register = later.read(0x1001, 0);
        told.0.push(register);
        if register.value & 0x10 == 0 {
            passed += 1 << bit;
        }
        if passed == 1 << 16 {
            return;
        }
    }
}
