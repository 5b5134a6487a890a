//! The machines of document 01 and Items 2 and 6 of document 02, each with its own settings and its own copy of
//! the node's state.

use crate::paper_node::{DeviceWide, Node, State};

#[derive(Clone, Copy)]
pub struct DigitalInput {
    pub node: Node,
    pub polarity: bool,
    pub filter: bool,
    pub any_change: bool,
    pub low_to_high: bool,
    pub high_to_low: bool,
    pub settled: bool,
    pub count: u8,
}

impl DigitalInput {
    pub fn fresh(number: u8) -> DigitalInput {
        DigitalInput {
            node: Node::fresh(number),
            polarity: false,
            filter: false,
            any_change: true,
            low_to_high: false,
            high_to_low: false,
            settled: false,
            count: 0,
        }
    }

    pub fn reads(&self) -> bool {
        self.settled != self.polarity
    }

    /// Whether the sample is an event.
    pub fn sample(&mut self, s: bool) -> bool {
        let before = self.settled;
        if !self.filter {
            self.settled = s;
            self.count = 0;
        } else if s == self.settled {
            self.count = 0;
        } else {
            self.count += 1;
            // It passes the length where a shorter one was written over it.
            if self.count >= self.node.filter_length {
                self.settled = s;
                self.count = 0;
            }
        }
        if self.settled == before {
            return false;
        }
        let mask = if self.reads() { self.low_to_high } else { self.high_to_low };
        self.node.state == State::Operational && self.node.digital_interrupts && (self.any_change || mask)
    }

    pub fn take(&mut self, news: DeviceWide) {
        if self.node.take(news) {
            *self = DigitalInput::fresh(self.node.number);
        }
    }
}

#[derive(Clone, Copy)]
pub struct DigitalOutput {
    pub node: Node,
    pub polarity: bool,
    pub error_mode: bool,
    pub error_value: bool,
    pub filter_mask: bool,
    pub kept: bool,
    pub driven: bool,
}

impl DigitalOutput {
    pub fn fresh(number: u8) -> DigitalOutput {
        DigitalOutput {
            node: Node::fresh(number),
            polarity: false,
            error_mode: true,
            error_value: false,
            filter_mask: true,
            kept: false,
            driven: false,
        }
    }

    pub fn follow(&mut self) {
        if !self.node.in_fault() {
            self.driven = self.kept != self.polarity;
        }
    }

    pub fn take(&mut self, news: DeviceWide) {
        let before = self.node.in_fault();
        if self.node.take(news) {
            *self = DigitalOutput::fresh(self.node.number);
            return;
        }
        // "A line that takes its error value when fault begins shall drive it inverted where its polarity is 1."
        if !before && self.node.in_fault() && self.error_mode {
            self.driven = self.error_value != self.polarity;
        }
        self.follow();
    }
}

#[derive(Clone, Copy)]
pub struct AnalogueInput {
    pub node: Node,
    pub selection: u8,
    pub upper: i32,
    pub lower: i32,
    pub delta: u32,
    pub negative_delta: u32,
    pub positive_delta: u32,
    pub last: i16,
    pub reference: i16,
    pub source: bool,
}

impl AnalogueInput {
    pub fn fresh(number: u8) -> AnalogueInput {
        AnalogueInput {
            node: Node::fresh(number),
            selection: 7,
            upper: 0,
            lower: 0,
            delta: 0,
            negative_delta: 0,
            positive_delta: 0,
            last: 0,
            reference: 0,
            source: false,
        }
    }

    pub fn met(&self, sample: i16) -> u8 {
        let x = i64::from(sample);
        let y = i64::from(self.last);
        let r = i64::from(self.reference);
        let mut met = 0;
        if x > i64::from(self.upper) && x != y {
            met |= 1;
        }
        if x < i64::from(self.lower) && x != y {
            met |= 2;
        }
        if (x - r).abs() > i64::from(self.delta) {
            met |= 4;
        }
        if r - x > i64::from(self.negative_delta) {
            met |= 8;
        }
        if x - r > i64::from(self.positive_delta) {
            met |= 16;
        }
        met
    }

    /// Whether the sample is an event.
    pub fn sample(&mut self, x: i16) -> bool {
        let event = self.node.state == State::Operational
            && self.node.analogue_interrupts
            && self.met(x) & self.selection != 0;
        if event {
            self.reference = x;
            self.source = true;
        }
        self.last = x;
        event
    }

    pub fn take(&mut self, news: DeviceWide) {
        if self.node.take(news) {
            *self = AnalogueInput::fresh(self.node.number);
        }
    }
}

#[derive(Clone, Copy)]
pub struct AnalogueOutput {
    pub node: Node,
    pub error_mode: bool,
    pub error_value: i16,
    pub kept: i16,
    pub driven: i16,
}

impl AnalogueOutput {
    pub fn fresh(number: u8) -> AnalogueOutput {
        AnalogueOutput { node: Node::fresh(number), error_mode: true, error_value: 0, kept: 0, driven: 0 }
    }

    pub fn follow(&mut self) {
        if !self.node.in_fault() {
            self.driven = self.kept;
        }
    }

    pub fn take(&mut self, news: DeviceWide) {
        let before = self.node.in_fault();
        if self.node.take(news) {
            *self = AnalogueOutput::fresh(self.node.number);
            return;
        }
        if !before && self.node.in_fault() && self.error_mode {
            self.driven = self.error_value;
        }
        self.follow();
    }
}
