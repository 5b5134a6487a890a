//! The part of a random list that Item 5 asks for: entries of 1016 set well and badly, heartbeats mostly of the
//! nodes that they name, and elapsed times that come one short of an entry's time, exactly to it, and past it.

use std::collections::VecDeque;

use crate::calls::{Call, Cause, Lent};
use crate::lists::Source;

/// The ends of their range, and some between, so few that entries often want the same one.
const NODES: [u8; 6] = [1, 2, 3, 64, 126, 127];
const NO_NODES: [u8; 5] = [0, 128, 129, 200, 255];
const TIMES: [u16; 12] = [1, 1, 2, 3, 10, 100, 1000, 1000, 32_767, 32_768, 65_534, 65_535];
/// Elapsed times that aim at no entry; some add to a sum that 16, 31 or 32 bits do not hold.
const ELAPSED: [u32; 12] =
    [0, 0, 1, 10, 1000, 65_535, 65_536, 65_537, 1 << 31, u32::MAX - 65_534, u32::MAX - 1, u32::MAX];

fn value_of(node: u8, time: u16) -> u32 {
    u32::from(node) << 16 | u32::from(time)
}

impl Source {
    /// A call on the entries, or one that shows or disturbs what comes of them.
    pub fn watch_call(&mut self) -> Call {
        if let Some(call) = self.watches.to_come.pop_front() {
            return call;
        }
        self.watches.calls = self.watches.calls.saturating_sub(1);
        if self.watches.stopped && self.random.chance(40) {
            return Call::Command { code: self.random.pick(&[1, 1, 128]), node: 0 };
        }
        if self.watches.loss && self.random.chance(35) {
            return Call::Clear(Cause::CommunicationLoss);
        }
        match self.random.below(100) {
            0..8 if !self.watches.are_busy() => self.begin_to_watch(),
            0..40 => Call::Elapsed { milliseconds: self.milliseconds() },
            40..62 => Call::Heartbeat { node: self.sending_node() },
            62..77 => self.watch_write(),
            77..82 => self.watch_read(),
            82..86 => self.error_behaviour_write(),
            86..89 => self.command(),
            89 => Call::Raise(self.cause()),
            90 => Call::Clear(self.cause()),
            91..94 => self.drive(),
            94..97 => self.sample(),
            97 => Call::Read { index: 0x1001, sub: 0 },
            98 => Call::Read { index: 0x1029, sub: 1 },
            _ => self.reset(),
        }
    }

    fn reset(&mut self) -> Call {
        let code = self.random.pick(&[129, 130, 130]);
        let own = self.number();
        let node = self.random.pick(&[0, own, own, 1, 2]);
        self.command_of(code, node)
    }

    /// Mostly the node is started and can lose communication; then entries are set, and their nodes send.
    fn begin_to_watch(&mut self) -> Call {
        let mut calls = VecDeque::new();
        if self.random.chance(80) {
            calls.push_back(Call::Command { code: 1, node: 0 });
            calls.push_back(Call::Clear(Cause::CommunicationLoss));
        }
        if self.random.chance(60) {
            calls.push_back(self.error_behaviour_write());
        }
        let (time, alike) = (self.watch_time(), self.random.chance(40));
        let first = self.random.below(NODES.len());
        for sub in (1..=4).filter(|_| self.random.chance(70)).collect::<Vec<u8>>() {
            let own = self.watch_time();
            let node = NODES[(first + usize::from(sub)) % NODES.len()];
            let value = value_of(node, if alike { time } else { own });
            calls.push_back(self.write_of(0x1016, sub, value, 4));
            if self.random.chance(90) {
                calls.push_back(Call::Heartbeat { node });
            }
        }
        self.watches.to_come = calls;
        self.watches.calls = 5 + self.random.below(40);
        self.watch_call()
    }

    fn watch_time(&mut self) -> u16 {
        let any = self.random.next() as u16;
        let listed = self.random.pick(&TIMES);
        self.random.pick(&[listed, listed, listed, any % 50, any])
    }

    fn watch_node(&mut self) -> u8 {
        let (listed, own) = (self.random.pick(&NODES), self.number());
        self.random.pick(&[listed, listed, listed, own])
    }

    fn good_value(&mut self) -> u32 {
        let node = self.watch_node();
        value_of(node, self.watch_time())
    }

    fn named_node(&mut self) -> u8 {
        self.watches.entries[self.random.below(4)].node()
    }

    /// Used or not, good or refused, for an entry counted from 0.
    pub fn watch_value(&mut self, at: usize) -> u32 {
        let good = self.good_value();
        let (here, any) = (self.watches.entries[at].value, self.random.next() as u32);
        let other = self.named_node();
        let (no_node, time) = (self.random.pick(&NO_NODES), self.watch_time());
        let unused = value_of(no_node, time);
        match self.random.below(20) {
            0..3 => here,
            3 => value_of(other, time),
            4 => unused,
            5 => self.random.pick(&[0, good & 0xFFFF_0000, value_of(other, 0)]),
            6 => self.random.pick(&[good, good, unused, here]) | 1 << (24 + any % 8),
            7 => self.random.pick(&[any, any >> 8, good.swap_bytes()]),
            _ => good,
        }
    }

    /// Mostly with the right sub-index and size.
    fn watch_write(&mut self) -> Call {
        let at = self.random.below(4);
        let value = self.watch_value(at);
        let size = if self.random.chance(4) { self.random.below(7) } else { 4 };
        let (index, sub) = self.watch_entry(at);
        if self.random.chance(2) {
            return Call::Write { index, sub, data: Lent::new(self.bytes(), size) };
        }
        self.write_of(index, sub, value, size)
    }

    fn watch_read(&mut self) -> Call {
        let at = self.random.below(4);
        let (index, sub) = self.watch_entry(at);
        Call::Read { index, sub }
    }

    fn watch_entry(&mut self, at: usize) -> (u16, u8) {
        let any = self.random.next() as u8;
        let near = at as u8 + 1;
        match self.random.below(25) {
            0 => (0x1016, self.random.pick(&[0, 0, 5, 6, 127, 255, any])),
            1 => (self.random.pick(&[0x1015, 0x1017, 0x1014, 0x1012]), near),
            _ => (0x1016, near),
        }
    }

    fn error_behaviour_write(&mut self) -> Call {
        let behaviour = self.random.pick(&[0, 1, 1, 2]);
        self.write_of(0x1029, 1, behaviour, 1)
    }

    /// Mostly one that an entry names.
    fn sending_node(&mut self) -> u8 {
        let any = self.random.next() as u8;
        let (named, own) = (self.named_node(), self.number());
        match self.random.below(20) {
            0 => self.random.pick(&[named ^ 0x80, named.wrapping_add(1), named.wrapping_sub(1)]),
            1 => self.random.pick(&NO_NODES),
            2 => self.random.pick(&[own, any, any & 127]),
            3 => self.random.pick(&NODES),
            _ => named,
        }
    }

    /// Mostly near what is left of an entry's time: of any, of the one that is due first, or of the last, so
    /// that all are due at once.
    fn milliseconds(&mut self) -> u32 {
        let mut left: Vec<u32> = self.watches.entries.iter().filter_map(|entry| entry.left).collect();
        let any = self.random.next() as u32;
        let listed = self.random.pick(&ELAPSED);
        let far = self.random.pick(&[listed, listed, listed, any % 2000, any]);
        if left.is_empty() || self.random.chance(15) {
            return far;
        }
        left.sort();
        let some = self.random.pick(&left);
        let aim = self.random.pick(&[left[0], some, left[left.len() - 1]]);
        match self.random.below(20) {
            0..5 => aim - 1,
            5..10 => aim,
            10..12 => aim + 1,
            12..14 => aim + any % 100,
            14..16 => aim / 2,
            // A sum of 32 bits that is not 0 wraps.
            16 => u32::MAX - any % 3,
            _ => any % aim,
        }
    }
}
