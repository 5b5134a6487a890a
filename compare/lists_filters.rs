//! The part of a random list that Item 2 asks for: filter lengths, also over counts that stand, and runs of
//! samples in which counts reach them.

use std::collections::VecDeque;

use crate::calls::Call;
use crate::lists::Source;

/// The one that is refused, short ones, and the last two.
const LENGTHS: [u8; 8] = [0, 1, 2, 3, 4, 5, 254, 255];
/// Up to the last one, so long that only a run reaches them.
const LONG_LENGTHS: [u8; 8] = [255, 255, 254, 253, 200, 129, 128, 127];

/// Samples that are to come, in which most lines stay as they are, and what should become of their counts.
pub struct Run {
    /// The calls that come first.
    opening: VecDeque<Call>,
    samples: usize,
    /// In percent of its calls, how often the length is written over a count of `calm` or above.
    disturbed: usize,
    calm: u8,
    length: u8,
    /// Of the lines that differ since they were turned together; none where they are settled.
    count: Option<u8>,
}

impl Run {
    pub fn none() -> Run {
        Run { opening: VecDeque::new(), samples: 0, disturbed: 0, calm: 0, length: 3, count: None }
    }

    pub fn is_on(&self) -> bool {
        self.samples > 0 || !self.opening.is_empty()
    }

    fn disturbed_now(&self) -> usize {
        if self.count.unwrap_or(0) < self.calm {
            return 0;
        }
        self.disturbed
    }

    /// A sample in which those lines are as they were last turned.
    fn sampled(&mut self) {
        self.samples = self.samples.saturating_sub(1);
        let risen = self.count.map(|count| count.saturating_add(1));
        self.count = risen.filter(|count| *count < self.length);
    }
}

impl Source {
    /// The start of a run, or a call on 2003 alone.
    pub fn filter_call(&mut self) -> Call {
        match self.random.below(100) {
            0..2 => self.begin_a_long_run(),
            2..28 => self.begin_a_short_run(),
            28..70 => self.length_write(),
            _ => self.length_read(),
        }
    }

    /// The next call of the run that is on.
    pub fn run_call(&mut self) -> Call {
        if let Some(call) = self.run.opening.pop_front() {
            return call;
        }
        if self.random.chance(self.run.disturbed_now()) {
            return self.length_write();
        }
        self.sample()
    }

    /// So many samples that the counts reach the length if nothing comes between, up to 300.
    fn begin_a_long_run(&mut self) -> Call {
        let any = 1 + self.random.below(255) as u8;
        let length = if self.random.chance(70) { self.random.pick(&LONG_LENGTHS) } else { any };
        let samples = usize::from(length) + self.random.below(46);
        let some = self.random.below(usize::from(length)) as u8;
        let calm = self.random.pick(&[0, some, length.saturating_sub(4), 255]);
        self.begin_a_run(length, samples);
        self.run.disturbed = self.random.pick(&[2, 20]);
        self.run.calm = calm;
        self.run_call()
    }

    fn begin_a_short_run(&mut self) -> Call {
        let length = self.random.pick(&[1, 2, 3, 4, 4, 5, 6, 9]);
        let samples = 2 + self.random.below(25);
        self.begin_a_run(length, samples);
        self.run.disturbed = self.random.pick(&[0, 10, 30]);
        self.run_call()
    }

    /// Mostly the node is started and filters are set first, so that lines count and their events are seen.
    fn begin_a_run(&mut self, length: u8, samples: usize) {
        let mut opening = VecDeque::new();
        if self.random.chance(60) {
            opening.push_back(Call::Command { code: 1, node: 0 });
        }
        for sub in (1..=4).filter(|_| self.random.chance(75)).collect::<Vec<u8>>() {
            let any = self.random.next() as u32;
            let filters = self.random.pick(&[u32::MAX, u32::MAX, u32::MAX, any]);
            opening.push_back(self.write_of(0x6123, sub, filters, 4));
        }
        opening.push_back(self.write_of(0x2003, 0, u32::from(length), 1));
        self.run = Run { opening, samples, length, ..Run::none() };
    }

    /// The lines of a run's next sample. Settled lines are soon turned again, so that they go on counting;
    /// counting ones seldom, and now and then a line changes alone.
    pub fn run_lines(&mut self, accepted: bool) {
        let turned = if self.run.count.is_none() { 80 } else { self.run.disturbed_now().min(2) };
        if self.random.chance(turned) {
            let some = self.random.chance(30);
            for at in 0..16 {
                self.lines[at] ^= if some { self.random.next() as u8 } else { 0xFF };
            }
            self.run.count = if self.run.count.is_none() { Some(0) } else { None };
        } else if self.random.chance(5) {
            self.turn_a_line();
        }
        if accepted {
            self.run.sampled();
        }
    }

    /// A length near the count that should stand now, shorter and longer, or any other.
    pub fn filter_length(&mut self) -> u8 {
        let count = self.run.count.unwrap_or(0);
        let near = [count.saturating_sub(1), count, count.saturating_add(1), count.saturating_add(2)];
        let any = self.random.next() as u8;
        let (listed, near) = (self.random.pick(&LENGTHS), self.random.pick(&near));
        self.random.pick(&[listed, listed, near, near, near, any])
    }

    /// Mostly with the right sub-index and size.
    fn length_write(&mut self) -> Call {
        let length = self.filter_length();
        let sub = self.length_sub_index();
        let any = self.random.below(7);
        let size = if self.random.chance(94) { 1 } else { any };
        if (sub, size) == (0, 1) && length != 0 {
            self.run.length = length;
        }
        self.write_of(0x2003, sub, u32::from(length), size)
    }

    fn length_read(&mut self) -> Call {
        Call::Read { index: 0x2003, sub: self.length_sub_index() }
    }

    fn length_sub_index(&mut self) -> u8 {
        let any = self.random.next() as u8;
        match self.random.below(20) {
            0 => 1,
            1 => self.random.pick(&[2, 255, any]),
            _ => 0,
        }
    }
}
