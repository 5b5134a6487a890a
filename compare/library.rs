//! The static library io401, called as C calls it: a device by pointer, slices as pointer and length.

use crate::calls::{Answer, Cause, Machine, Message};

#[derive(Clone, Copy)]
#[repr(C)]
pub struct Device {
    octets: [u8; 22],
    flags: [bool; 12],
    words: [u64; 40],
    limits: [i32; 32],
    deltas: [u32; 128],
    values: [i16; 56],
}

#[repr(C)]
struct Read {
    number: u32,
    value: u32,
    size: usize,
}

#[repr(C)]
struct Sample {
    number: u32,
    events: u16,
}

#[repr(C)]
struct Transmit {
    number: u32,
    count: usize,
}

#[repr(C)]
struct Request {
    number: u32,
    length: usize,
}

unsafe extern "C" {
    fn io401_create_arrays(device: *mut Device, number: u8) -> u32;
    fn io401_read_arrays(device: *mut Device, index: u16, sub: u8) -> Read;
    fn io401_write_arrays(device: *mut Device, index: u16, sub: u8, bytes: *const u8, length: usize) -> u32;
    fn io401_sample_arrays(
        device: *mut Device,
        digital: *const u8, digital_length: usize, analogue: *const i16, analogue_length: usize, events: *mut u8, events_length: usize,
    ) -> Sample;
    fn io401_command_arrays(device: *mut Device, code: u8, node: u8) -> u32;
    fn io401_raise_arrays(device: *mut Device, loss: bool) -> u32;
    fn io401_clear_arrays(device: *mut Device, loss: bool) -> u32;
    fn io401_drive_arrays(device: *const Device, lines: *mut u8, lines_length: usize, channels: *mut i16, channels_length: usize) -> u32;
    fn io401_receive_arrays(device: *mut Device, second_pair: bool, second: bool, frame: *const u8, length: usize) -> u32;
    fn io401_transmit_arrays(device: *const Device, second_pair: bool, second: bool, frame: *mut u8, length: usize) -> Transmit;
    fn io401_request_arrays(
        device: *mut Device, request: *const u8, request_length: usize, reply: *mut u8, reply_length: usize,
    ) -> Request;
    fn io401_heartbeat_arrays(device: *mut Device, node: u8) -> u32;
    fn io401_elapsed_arrays(device: *mut Device, milliseconds: u32) -> u32;
}

// Every pointer is that of a live device or slice, and no two overlap.
macro_rules! call {
    ($name:ident, $device:expr $(, $more:expr)*) => {
        unsafe { $name($device $(, $more)*) }
    };
}

/// Whether it is one of the last two, and whether it is the second of its two.
fn pair_and_place(message: Message) -> (bool, bool) {
    match message {
        Message::One => (false, false),
        Message::Two => (false, true),
        Message::Three => (true, false),
        Message::Four => (true, true),
    }
}

impl Machine for Device {
    fn create(number: u8) -> (u32, Device) {
        let mut d = Device { octets: [0; 22], flags: [false; 12], words: [0; 40], limits: [0; 32], deltas: [0; 128], values: [0; 56] };
        let refused = call!(io401_create_arrays, &mut d, number);
        (refused, d)
    }

    fn read(&mut self, index: u16, sub: u8) -> Answer {
        let done = call!(io401_read_arrays, self, index, sub);
        Answer { value: done.value, size: done.size, ..Answer::refused(done.number) }
    }

    fn write(&mut self, index: u16, sub: u8, data: &[u8]) -> Answer {
        Answer::refused(call!(io401_write_arrays, self, index, sub, data.as_ptr(), data.len()))
    }

    fn sample(&mut self, digital: &[u8], analogue: &[i16], events: &mut [u8]) -> Answer {
        let done = call!(
            io401_sample_arrays, self,
            digital.as_ptr(), digital.len(), analogue.as_ptr(), analogue.len(), events.as_mut_ptr(), events.len()
        );
        Answer { events: done.events, ..Answer::refused(done.number) }
    }

    fn command(&mut self, code: u8, node: u8) -> Answer {
        Answer::refused(call!(io401_command_arrays, self, code, node))
    }

    fn raise(&mut self, cause: Cause) -> Answer {
        let loss = cause == Cause::CommunicationLoss;
        Answer::refused(call!(io401_raise_arrays, self, loss))
    }

    fn clear(&mut self, cause: Cause) -> Answer {
        let loss = cause == Cause::CommunicationLoss;
        Answer::refused(call!(io401_clear_arrays, self, loss))
    }

    fn drive(&mut self, lines: &mut [u8], channels: &mut [i16]) -> Answer {
        let (l, c) = (lines.as_mut_ptr(), channels.as_mut_ptr());
        Answer::refused(call!(io401_drive_arrays, self, l, lines.len(), c, channels.len()))
    }

    fn receive(&mut self, message: Message, frame: &[u8]) -> Answer {
        let (second_pair, second) = pair_and_place(message);
        Answer::refused(call!(io401_receive_arrays, self, second_pair, second, frame.as_ptr(), frame.len()))
    }

    fn transmit(&mut self, message: Message, frame: &mut [u8]) -> Answer {
        let (second_pair, second) = pair_and_place(message);
        let done = call!(io401_transmit_arrays, self, second_pair, second, frame.as_mut_ptr(), frame.len());
        Answer { count: done.count, ..Answer::refused(done.number) }
    }

    fn request(&mut self, request: &[u8], reply: &mut [u8]) -> Answer {
        let (r, a) = (request.as_ptr(), reply.as_mut_ptr());
        let done = call!(io401_request_arrays, self, r, request.len(), a, reply.len());
        Answer { count: done.length, ..Answer::refused(done.number) }
    }

    fn heartbeat(&mut self, node: u8) -> Answer {
        Answer::refused(call!(io401_heartbeat_arrays, self, node))
    }

    fn elapsed(&mut self, milliseconds: u32) -> Answer {
        Answer::refused(call!(io401_elapsed_arrays, self, milliseconds))
    }
}
