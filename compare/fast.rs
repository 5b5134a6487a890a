//! Document 01 and Items 1 to 3, 5 and 6 of document 02 for speed: rows of 128 bits, the device changed in
//! place, an index found by one load, driven outputs computed when they are asked for.

use crate::calls::{Answer, Cause, Machine, Message};
use crate::fast_entries::number_of;
use crate::fast_kinds::*;
use crate::fast_mappings::{Mapping, MAPPINGS};
use crate::fast_samples::Counts;
use crate::fast_watch::Watches;

const PRE_OPERATIONAL: u8 = 0;
pub const OPERATIONAL: u8 = 1;
pub const STOPPED: u8 = 2;

const INTERNAL_FAILURE: u8 = 1;
const COMMUNICATION_LOSS: u8 = 2;

/// 128 lines, line 1 the lowest bit of the first word.
pub type Row = [u64; 2];

// The rows of the table, then what only the machines know.
pub const INPUT: usize = 0;
pub const INPUT_POLARITY: usize = 1;
pub const INPUT_FILTER: usize = 2;
pub const ANY_CHANGE: usize = 3;
pub const LOW_TO_HIGH: usize = 4;
pub const HIGH_TO_LOW: usize = 5;
pub const OUTPUT: usize = 6;
const OUTPUT_POLARITY: usize = 7;
const ERROR_MODE: usize = 8;
const ERROR_VALUE: usize = 9;
pub const FILTER_MASK: usize = 10;
const HELD: usize = 11;
const ROWS: usize = 12;

#[derive(Clone)]
pub struct Device {
    pub rows: [Row; ROWS],
    /// Of the filters, for each word of a row.
    pub counts: [Counts; 2],
    /// U, L, D, N, P by channel.
    pub limits: [[u32; 16]; 5],
    pub selections: [u8; 16],
    pub values: [i16; 16],
    pub references: [i16; 16],
    pub sources: u16,
    pub kept: [i16; 8],
    pub errors: [i16; 8],
    pub held: [i16; 8],
    pub modes: u8,
    pub node: u8,
    pub state: u8,
    pub causes: u8,
    pub error_behaviour: u8,
    pub digital_interrupts: u8,
    pub analogue_interrupts: u8,
    pub filter_length: u8,
    /// The bits of the longest filter length so far; no count has more.
    pub count_bits: u8,
    pub mappings: [Mapping; MAPPINGS],
    pub watches: Watches,
}

impl Device {
    fn fresh(node: u8) -> Device {
        let mut rows = [[0; 2]; ROWS];
        rows[ANY_CHANGE] = [u64::MAX; 2];
        rows[ERROR_MODE] = [u64::MAX; 2];
        rows[FILTER_MASK] = [u64::MAX; 2];
        Device {
            rows,
            counts: [Counts::NONE; 2],
            limits: [[0; 16]; 5],
            selections: [7; 16],
            values: [0; 16],
            references: [0; 16],
            sources: 0,
            kept: [0; 8],
            errors: [0; 8],
            held: [0; 8],
            modes: 0xFF,
            node,
            state: PRE_OPERATIONAL,
            causes: 0,
            error_behaviour: 0,
            digital_interrupts: 1,
            analogue_interrupts: 0,
            filter_length: 3,
            count_bits: 2,
            mappings: [Mapping::EMPTY; MAPPINGS],
            watches: Watches::EMPTY,
        }
    }

    fn in_fault(&self) -> bool {
        self.causes != 0 || self.state == STOPPED
    }

    /// The driven outputs of a fault that begins now.
    fn hold(&mut self) {
        for w in 0..2 {
            let mode = self.rows[ERROR_MODE][w];
            // The polarity of this moment, for an error value as for a line that stays.
            let taken = (self.rows[ERROR_VALUE][w] & mode) | (self.rows[OUTPUT][w] & !mode);
            self.rows[HELD][w] = taken ^ self.rows[OUTPUT_POLARITY][w];
        }
        for n in 0..8 {
            self.held[n] = if self.modes >> n & 1 == 1 { self.errors[n] } else { self.kept[n] };
        }
    }

    fn change_node(&mut self, state: u8, causes: u8) {
        let before = self.in_fault();
        self.state = state;
        self.causes = causes;
        if !before && self.in_fault() {
            self.hold();
        }
    }
}

impl Machine for Device {
    fn create(number: u8) -> (u32, Device) {
        match number {
            1..=127 => (0, Device::fresh(number)),
            _ => (1, Device::fresh(127)),
        }
    }

    // Inlined, as what it rests on is: the server calls it too, and a plain call is not to pay for that.
    #[inline(always)]
    fn read(&mut self, index: u16, sub: u8) -> Answer {
        if self.state == STOPPED {
            return Answer::refused(0x0800_0022);
        }
        let kind = kind(index);
        if kind == NONE {
            return Answer::refused(0x0602_0000);
        }
        let (last, size) = SHAPES[usize::from(kind)];
        if sub > last {
            return Answer::refused(0x0609_0011);
        }
        let (value, size) = if kind >= MAPPING {
            self.mappings[usize::from(kind - MAPPING)].read(sub)
        } else if sub == 0 && last != 0 {
            (u32::from(last), 1)
        } else {
            (self.value(kind, sub), usize::from(size))
        };
        Answer { value, size, ..Answer::default() }
    }

    // As above.
    #[inline(always)]
    fn write(&mut self, index: u16, sub: u8, data: &[u8]) -> Answer {
        if self.state == STOPPED {
            return Answer::refused(0x0800_0022);
        }
        let kind = kind(index);
        if kind == NONE {
            return Answer::refused(0x0602_0000);
        }
        let (last, size) = SHAPES[usize::from(kind)];
        if sub > last {
            return Answer::refused(0x0609_0011);
        }
        if kind >= MAPPING {
            return Answer::refused(self.write_mapping(usize::from(kind - MAPPING), sub, data));
        }
        let read_only = matches!(kind, 1..=4 | VALUE | SOURCE | DEVICE_TYPE | ERROR_REGISTER);
        if read_only || (sub == 0 && last != 0) {
            return Answer::refused(0x0601_0002);
        }
        match number_of(data, usize::from(size)) {
            Ok(value) => Answer::refused(self.store(kind, sub, value)),
            Err(refusal) => Answer::refused(refusal),
        }
    }

    fn sample(&mut self, digital: &[u8], analogue: &[i16], events: &mut [u8]) -> Answer {
        let Ok(digital) = <&[u8; 16]>::try_from(digital) else {
            return Answer::refused(3);
        };
        let Ok(analogue) = <&[i16; 16]>::try_from(analogue) else {
            return Answer::refused(4);
        };
        let Ok(events) = <&mut [u8; 16]>::try_from(events) else {
            return Answer::refused(5);
        };
        let samples = u128::from_le_bytes(*digital);
        let [low, high] = self.sample_lines([samples as u64, (samples >> 64) as u64]);
        *events = (u128::from(low) | u128::from(high) << 64).to_le_bytes();
        Answer { events: self.sample_channels(analogue), ..Answer::default() }
    }

    fn command(&mut self, code: u8, node: u8) -> Answer {
        if node > 127 {
            return Answer::refused(1);
        }
        if !matches!(code, 1 | 2 | 128..=130) {
            return Answer::refused(2);
        }
        if node == 0 || node == self.node {
            match code {
                1 => self.change_node(OPERATIONAL, self.causes),
                2 => self.change_node(STOPPED, self.causes),
                128 => self.change_node(PRE_OPERATIONAL, self.causes),
                129 => *self = Device::fresh(self.node),
                _ => {
                    self.error_behaviour = 0;
                    self.mappings = [Mapping::EMPTY; MAPPINGS];
                    self.watches = Watches::EMPTY;
                    self.change_node(PRE_OPERATIONAL, self.causes & !COMMUNICATION_LOSS);
                }
            }
        }
        Answer::default()
    }

    fn raise(&mut self, cause: Cause) -> Answer {
        match cause {
            Cause::InternalFailure => self.change_node(self.state, self.causes | INTERNAL_FAILURE),
            Cause::CommunicationLoss if self.causes & COMMUNICATION_LOSS != 0 => {}
            Cause::CommunicationLoss => {
                let state = match self.error_behaviour {
                    0 if self.state == OPERATIONAL => PRE_OPERATIONAL,
                    2 => STOPPED,
                    _ => self.state,
                };
                self.change_node(state, self.causes | COMMUNICATION_LOSS);
            }
        }
        Answer::default()
    }

    fn clear(&mut self, cause: Cause) -> Answer {
        self.causes &= match cause {
            Cause::InternalFailure => !INTERNAL_FAILURE,
            Cause::CommunicationLoss => !COMMUNICATION_LOSS,
        };
        Answer::default()
    }

    fn drive(&mut self, lines: &mut [u8], channels: &mut [i16]) -> Answer {
        let (Ok(lines), Ok(channels)) =
            (<&mut [u8; 16]>::try_from(lines), <&mut [i16; 8]>::try_from(channels))
        else {
            return Answer::refused(6);
        };
        let fault = self.in_fault();
        let polarity = self.rows[OUTPUT_POLARITY];
        let [low, high] = self.rows[if fault { HELD } else { OUTPUT }];
        let [low, high] = if fault { [low, high] } else { [low ^ polarity[0], high ^ polarity[1]] };
        *lines = (u128::from(low) | u128::from(high) << 64).to_le_bytes();
        *channels = if fault { self.held } else { self.kept };
        Answer::default()
    }

    fn receive(&mut self, message: Message, frame: &[u8]) -> Answer {
        self.obey(message, frame)
    }

    fn transmit(&mut self, message: Message, frame: &mut [u8]) -> Answer {
        self.send(message, frame)
    }

    fn request(&mut self, request: &[u8], reply: &mut [u8]) -> Answer {
        self.serve(request, reply)
    }

    fn heartbeat(&mut self, node: u8) -> Answer {
        self.watches.heartbeat(node);
        Answer::default()
    }

    fn elapsed(&mut self, milliseconds: u32) -> Answer {
        match self.watches.expire(milliseconds) {
            true => self.raise(Cause::CommunicationLoss),
            false => Answer::default(),
        }
    }
}
