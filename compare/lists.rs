//! Random lists of calls: any arguments, wrong lengths and refused calls among them, weighted so
//! that most calls do something. The same seed makes the same list.

use crate::calls::{Call, Cause, Lent};
use crate::lists_faults::Faults;
use crate::lists_filters::Run;
use crate::lists_mappings::Plans;
use crate::lists_objects::{objects, Object, DEVICE_WIDE_OBJECTS, DIGITAL_OBJECTS};
use crate::lists_watched::Watches;

/// SplitMix64.
pub struct Random(u64);

impl Random {
    pub fn new(seed: u64) -> Random {
        Random(seed)
    }

    pub fn next(&mut self) -> u64 {
        self.0 = self.0.wrapping_add(0x9E37_79B9_7F4A_7C15);
        let mut z = self.0;
        z = (z ^ z >> 30).wrapping_mul(0xBF58_476D_1CE4_E5B9);
        z = (z ^ z >> 27).wrapping_mul(0x94D0_49BB_1331_11EB);
        z ^ z >> 31
    }

    pub fn below(&mut self, bound: usize) -> usize {
        (self.next() % bound as u64) as usize
    }

    /// True in `percent` of a hundred cases.
    pub fn chance(&mut self, percent: usize) -> bool {
        self.below(100) < percent
    }

    pub fn pick<T: Copy>(&mut self, from: &[T]) -> T {
        from[self.below(from.len())]
    }
}

/// What a list is drawn from; it remembers the lines and channels last sampled, so that few change.
pub struct Source {
    pub random: Random,
    pub plans: Plans,
    pub run: Run,
    pub watches: Watches,
    pub faults: Faults,
    pub objects: Vec<Object>,
    number: u8,
    /// Commands mostly start the node, so that mappings last; in other lists any command comes as often.
    steady: bool,
    pub lines: [u8; 16],
    channels: [i16; 16],
}

impl Source {
    pub fn new(seed: u64) -> Source {
        let mut random = Random::new(seed);
        let number = if random.chance(5) { random.next() as u8 } else { 1 + random.below(127) as u8 };
        let steady = random.chance(60);
        Source {
            random,
            plans: Plans::new(),
            run: Run::none(),
            watches: Watches::none(),
            faults: Faults::none(),
            objects: objects(),
            number,
            steady,
            lines: [0; 16],
            channels: [0; 16],
        }
    }

    /// The argument of create.
    pub fn number(&self) -> u8 {
        self.number
    }

    pub fn call(&mut self) -> Call {
        if self.random.chance(3) {
            return self.odd_request();
        }
        let call = self.call_without_server();
        self.watches.take(&call, self.number);
        self.faults.take(&call, self.number);
        self.perhaps_requested(call)
    }

    fn call_without_server(&mut self) -> Call {
        // What is planned is soon done, with other calls in between.
        if self.something_is_planned() && self.random.chance(50) {
            return self.mapping_call();
        }
        if self.run.is_on() && self.random.chance(85) {
            return self.run_call();
        }
        if self.watches.are_busy() && self.random.chance(80) {
            return self.watch_call();
        }
        if self.faults.are_busy() && self.random.chance(80) {
            return self.fault_call();
        }
        match self.random.below(100) {
            0..22 => self.write(),
            22..36 => self.read(),
            36..55 => self.sample(),
            55..60 => self.command(),
            60..62 => Call::Raise(self.cause()),
            62..65 => Call::Clear(self.cause()),
            65..71 => self.drive(),
            71..74 if !self.run.is_on() => self.filter_call(),
            74..82 => self.watch_call(),
            82 => self.fault_call(),
            _ => self.mapping_call(),
        }
    }

    pub fn cause(&mut self) -> Cause {
        self.random.pick(&[Cause::InternalFailure, Cause::CommunicationLoss])
    }

    pub fn bytes(&mut self) -> [u8; 24] {
        std::array::from_fn(|_| self.random.next() as u8)
    }

    fn numbers(&mut self) -> [i16; 24] {
        std::array::from_fn(|_| self.random.next() as i16)
    }

    /// Mostly the right length, else any.
    fn length(&mut self, right: usize) -> usize {
        match self.random.below(50) {
            0 => self.random.below(25),
            1 => right + 1,
            2 => right - 1,
            _ => right,
        }
    }

    fn entry(&mut self) -> (Object, u8) {
        // Digital, analogue, device-wide, in the order of `objects`.
        let at = match self.random.below(10) {
            0..5 => self.random.below(DIGITAL_OBJECTS),
            5..9 => DIGITAL_OBJECTS + self.random.below(10),
            _ => DIGITAL_OBJECTS + 10 + self.random.below(DEVICE_WIDE_OBJECTS),
        };
        let mut object = self.objects[at];
        if self.random.chance(3) {
            object.index = object.index.wrapping_add(self.random.pick(&[1, 0x10, 0x100, 0xFFFF]));
        } else if self.random.chance(2) {
            object.index = self.random.next() as u16;
        }
        let sub = match self.random.below(50) {
            0 => self.random.next() as u8,
            1 => object.last + 1,
            2 => 0,
            _ if object.last == 0 => 0,
            _ => 1 + self.random.below(usize::from(object.last)) as u8,
        };
        (object, sub)
    }

    pub fn read(&mut self) -> Call {
        let (object, sub) = self.entry();
        Call::Read { index: object.index, sub }
    }

    pub fn write(&mut self) -> Call {
        let (object, sub) = self.entry();
        let value = self.value(object);
        let length = if self.random.chance(94) {
            object.size
        } else if self.random.chance(80) {
            self.random.below(6)
        } else {
            self.random.below(25)
        };
        self.write_of(object.index, sub, value, length)
    }

    /// Beyond the value the data is anything.
    pub fn write_of(&mut self, index: u16, sub: u8, value: u32, length: usize) -> Call {
        let mut data = self.bytes();
        data[..4].copy_from_slice(&value.to_le_bytes());
        Call::Write { index, sub, data: Lent::new(data, length) }
    }

    fn value(&mut self, object: Object) -> u32 {
        if self.random.chance(3) {
            return self.random.next() as u32;
        }
        match object.index {
            0x1029 => self.random.pick(&[0, 0, 1, 1, 2, 2, 3]),
            0x6005 | 0x6423 => self.random.pick(&[1, 1, 1, 1, 1, 1, 0, 2]),
            0x6443 => self.random.pick(&[0, 0, 1, 1, 2]),
            0x1016 => {
                let at = self.random.below(4);
                self.watch_value(at)
            }
            0x2003 => u32::from(self.filter_length()),
            0x6421 => {
                let one = 1 << self.random.below(5);
                let any = self.random.below(40) as u32;
                self.random.pick(&[one, one, any])
            }
            0x6411 | 0x6424..=0x6428 | 0x6444 => self.number_near_a_bound(),
            0x6020..=0x607F | 0x6220..=0x627F => self.random.pick(&[0, 0, 0, 1, 1, 1, 2]),
            _ => {
                let any = self.random.next() as u32;
                self.random.pick(&[any, any, any, 0, u32::MAX, 1 << (any % 32)])
            }
        }
    }

    fn number_near_a_bound(&mut self) -> u32 {
        let any = self.random.next() as u32;
        let small = any % 25;
        let bounds = [
            0,
            1,
            32_766,
            32_767,
            32_768,
            65_534,
            65_535,
            65_536,
            u32::MAX,
            i32::MAX as u32,
            i32::MIN as u32,
        ];
        let bound = self.random.pick(&bounds);
        let half = any as i16 as i32 as u32;
        self.random.pick(&[bound, bound.wrapping_neg(), small, small.wrapping_neg(), half, any])
    }

    pub fn turn_a_line(&mut self) {
        let line = self.random.below(128);
        self.lines[line / 8] ^= 1 << (line % 8);
    }

    /// Seldom a wrong one in a run, so that its counts get far.
    fn buffer_lengths(&mut self) -> [usize; 3] {
        if self.run.is_on() && self.random.chance(95) {
            return [16; 3];
        }
        [self.length(16), self.length(16), self.length(16)]
    }

    pub fn sample(&mut self) -> Call {
        let lengths = self.buffer_lengths();
        if self.run.is_on() {
            self.run_lines(lengths == [16; 3]);
        } else {
            (0..self.random.pick(&[0, 0, 1, 2, 4, 200])).for_each(|_| self.turn_a_line());
        }
        for _ in 0..self.random.pick(&[0, 1, 2, 16]) {
            let channel = self.random.below(16);
            let any = self.random.next();
            let step = (any % 41) as i16 - 20;
            let near = self.channels[channel].wrapping_add(step);
            let bound = self.random.pick(&[i16::MIN, i16::MIN + 1, -1, 0, 1, i16::MAX - 1, i16::MAX]);
            self.channels[channel] = self.random.pick(&[near, near, bound, any as i16]);
        }
        let mut digital = self.bytes();
        digital[..16].copy_from_slice(&self.lines);
        let mut analogue = self.numbers();
        analogue[..16].copy_from_slice(&self.channels);
        Call::Sample {
            digital: Lent::new(digital, lengths[0]),
            analogue: Lent::new(analogue, lengths[1]),
            events: Lent::new(self.bytes(), lengths[2]),
        }
    }

    pub fn command(&mut self) -> Call {
        let code = match self.random.below(20) {
            _ if self.steady && self.random.chance(75) => 1,
            0..10 => 1,
            10..12 => 2,
            12..15 => 128,
            15 => 129,
            16..19 => 130,
            _ => self.random.next() as u8,
        };
        let any = self.random.next() as u8;
        let node = self.random.pick(&[0, 0, self.number, self.number, self.number, any & 127, any]);
        self.command_of(code, node)
    }

    pub fn command_of(&mut self, code: u8, node: u8) -> Call {
        let obeyed = node == 0 || node == self.number;
        if obeyed && matches!(code, 129 | 130) {
            self.plans.forget();
        }
        if obeyed && code == 129 {
            self.run = Run::none();
        }
        Call::Command { code, node }
    }

    pub fn drive(&mut self) -> Call {
        Call::Drive {
            lines: Lent::new(self.bytes(), self.length(16)),
            channels: Lent::new(self.numbers(), self.length(8)),
        }
    }
}
