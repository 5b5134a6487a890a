//! The part of a random list that Item 6 asks for: output lines with every polarity, error mode and error value,
//! fault that begins and ends in every way, and drives and writes while it lasts.

use std::collections::VecDeque;

use crate::calls::{Call, Cause};
use crate::lists::Source;

// Rows of the table, counted from 0: output, output polarity, error mode, error value, output filter mask.
const OUTPUT: usize = 6;
const FILTER_MASK: usize = 10;
/// The column of 32 bits, counted from 0.
const WIDEST: usize = 3;

/// Calls on fault that are to come, and what of fault `Watches` does not know.
pub struct Faults {
    internal: bool,
    to_come: VecDeque<Call>,
    /// How many calls on fault follow each other, with few others between.
    calls: usize,
}

impl Faults {
    pub fn none() -> Faults {
        Faults { internal: false, to_come: VecDeque::new(), calls: 0 }
    }

    pub fn are_busy(&self) -> bool {
        self.calls > 0 || !self.to_come.is_empty()
    }

    /// A call of the list on a node of this number.
    pub fn take(&mut self, call: &Call, number: u8) {
        match call {
            Call::Raise(Cause::InternalFailure) => self.internal = true,
            Call::Clear(Cause::InternalFailure) => self.internal = false,
            Call::Command { code: 129, node } if *node == 0 || *node == number => self.internal = false,
            _ => {}
        }
    }
}

impl Source {
    /// A call that sets lines up for fault, begins or ends it, or writes or drives during it.
    pub fn fault_call(&mut self) -> Call {
        if let Some(call) = self.faults.to_come.pop_front() {
            return call;
        }
        if self.faults.calls == 0 {
            return self.begin_with_faults();
        }
        self.faults.calls -= 1;
        if self.faults.internal || self.watches.loss || self.watches.stopped {
            return self.call_in_fault();
        }
        match self.random.below(100) {
            0..25 => self.line_write(),
            25..30 => self.drive(),
            30..45 => self.command_for_all_or_own(&[1, 1, 1, 128]),
            _ => self.begin_a_fault(),
        }
    }

    /// Some lines, 32 together, get random bits in each row.
    fn begin_with_faults(&mut self) -> Call {
        let mut calls = VecDeque::new();
        for sub in (1..=4).filter(|_| self.random.chance(50)).collect::<Vec<u8>>() {
            for row in (OUTPUT..FILTER_MASK).filter(|_| self.random.chance(90)).collect::<Vec<usize>>() {
                calls.push_back(self.write_in(row, WIDEST, sub));
            }
        }
        self.faults.to_come = calls;
        self.faults.calls = 5 + self.random.below(30);
        self.fault_call()
    }

    fn write_in(&mut self, row: usize, column: usize, sub: u8) -> Call {
        let object = self.objects[4 * row + column];
        let any = self.random.next() as u32;
        let value = if column == 0 { any & 1 } else { any };
        self.write_of(object.index, sub, value, object.size)
    }

    /// Half of them where a word of the row begins or ends.
    fn line_write(&mut self) -> Call {
        let row = OUTPUT + self.random.pick(&[0, 0, 1, 1, 2, 2, 3, 3, 4]);
        let column = self.random.pick(&[0, 0, 1, 2, WIDEST, WIDEST]);
        let last = self.objects[4 * row + column].last;
        let any = 1 + self.random.below(usize::from(last)) as u8;
        let sub = self.random.pick(&[1, last / 2, last / 2 + 1, last, any, any, any, any]);
        self.write_in(row, column, sub)
    }

    fn command_for_all_or_own(&mut self, codes: &[u8]) -> Call {
        let (code, own) = (self.random.pick(codes), self.number());
        let node = self.random.pick(&[0, own]);
        self.command_of(code, node)
    }

    /// A fault that begins, or a second cause; mostly driven at once.
    fn begin_a_fault(&mut self) -> Call {
        let way = self.random.below(16);
        let mut calls = VecDeque::new();
        // Only the loss asks for it.
        if way >= 5 && self.random.chance(70) {
            let behaviour = self.random.pick(&[0, 1, 2]);
            calls.push_back(self.write_of(0x1029, 1, behaviour, 1));
        }
        match way {
            0..3 => calls.push_back(Call::Raise(Cause::InternalFailure)),
            3..5 => calls.push_back(self.command_for_all_or_own(&[2])),
            5..10 => calls.push_back(Call::Raise(Cause::CommunicationLoss)),
            _ => calls.extend(self.expiry()),
        }
        if self.random.chance(85) {
            calls.push_back(self.drive());
        }
        self.faults.to_come = calls;
        self.fault_call()
    }

    /// An entry for a node that no other routine aims at, and all of its time at once.
    fn expiry(&mut self) -> [Call; 3] {
        let sub = 1 + self.random.below(4) as u8;
        let (node, milliseconds) = (10 + sub, 1 + self.random.below(50) as u32);
        let value = u32::from(node) << 16 | milliseconds;
        [self.write_of(0x1016, sub, value, 4), Call::Heartbeat { node }, Call::Elapsed { milliseconds }]
    }

    fn call_in_fault(&mut self) -> Call {
        // A stopped node refuses every write.
        let written = if self.watches.stopped { 5 } else { 30 };
        match self.random.below(100) {
            below if below < written => self.line_write(),
            30..50 => self.drive(),
            50..60 => self.receive(),
            60..64 => self.begin_a_fault(),
            64..68 => self.command_for_all_or_own(&[1, 2, 128]),
            _ => self.end_of_a_cause(),
        }
    }

    /// Mostly the fault's end, and mostly driven at once.
    fn end_of_a_cause(&mut self) -> Call {
        if self.random.chance(85) {
            let drive = self.drive();
            self.faults.to_come.push_back(drive);
        }
        if self.random.chance(8) {
            return self.command_for_all_or_own(&[129, 130, 130, 130]);
        }
        if self.watches.stopped {
            return self.command_for_all_or_own(&[1, 1, 128]);
        }
        Call::Clear(if self.faults.internal { Cause::InternalFailure } else { Cause::CommunicationLoss })
    }
}
