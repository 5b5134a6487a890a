//! Samples for speed: the counts of 64 lines rise at once, as eight planes of bits.

use crate::fast::{
    Device, Row, ANY_CHANGE, HIGH_TO_LOW, INPUT, INPUT_FILTER, INPUT_POLARITY, LOW_TO_HIGH, OPERATIONAL,
};

/// The counts of 64 filtered lines.
#[derive(Clone, Copy)]
pub struct Counts {
    /// Bit n of every count in plane n.
    planes: [u64; 8],
    /// The lines that count; of the others a plane says nothing.
    standing: u64,
}

impl Counts {
    pub const NONE: Counts = Counts { planes: [0; 8], standing: 0 };

    /// The counts of these lines rise, all others become 0; the lines whose count reaches or passes the
    /// length. No count has more bits than told.
    fn rise(&mut self, counting: u64, length: u8, bits: u8) -> u64 {
        let standing = self.standing & counting;
        self.standing = counting;
        if counting == 0 {
            return 0;
        }
        // Reached by the bits so far, from the lowest on.
        let (mut carry, mut reached) = (counting, counting);
        for (bit, plane) in self.planes.iter_mut().enumerate().take(usize::from(bits)) {
            let before = *plane & standing;
            *plane = before ^ carry;
            carry &= before;
            reached = if length >> bit & 1 == 1 { reached & *plane } else { reached | *plane };
        }
        self.standing = counting ^ reached;
        reached
    }
}

impl Device {
    /// The digital events.
    pub fn sample_lines(&mut self, samples: Row) -> Row {
        let enabled = if self.state == OPERATIONAL && self.digital_interrupts == 1 { u64::MAX } else { 0 };
        let mut events = [0; 2];
        for w in 0..2 {
            let settled = self.rows[INPUT][w];
            let differs = samples[w] ^ settled;
            let counting = differs & self.rows[INPUT_FILTER][w];
            let reached = self.counts[w].rise(counting, self.filter_length, self.count_bits);
            let changed = (differs ^ counting) | reached;
            self.rows[INPUT][w] = settled ^ changed;
            let reads = settled ^ changed ^ self.rows[INPUT_POLARITY][w];
            let mask = (reads & self.rows[LOW_TO_HIGH][w]) | (!reads & self.rows[HIGH_TO_LOW][w]);
            events[w] = changed & (self.rows[ANY_CHANGE][w] | mask) & enabled;
        }
        events
    }

    /// The analogue events.
    pub fn sample_channels(&mut self, samples: &[i16; 16]) -> u16 {
        let mut events = 0;
        if self.state == OPERATIONAL && self.analogue_interrupts == 1 {
            let [upper, lower, delta, negative, positive] = &self.limits;
            for n in 0..16 {
                let x = i32::from(samples[n]);
                let moved = x != i32::from(self.values[n]);
                let rise = x - i32::from(self.references[n]);
                let distance = rise.unsigned_abs();
                let met = u8::from((x > upper[n] as i32) & moved)
                    | u8::from((x < lower[n] as i32) & moved) << 1
                    | u8::from(distance > delta[n]) << 2
                    | u8::from((distance > negative[n]) & (rise < 0)) << 3
                    | u8::from((distance > positive[n]) & (rise > 0)) << 4;
                let event = met & self.selections[n] != 0;
                self.references[n] = if event { samples[n] } else { self.references[n] };
                events |= u16::from(event) << n;
            }
        }
        self.sources |= events;
        self.values = *samples;
        events
    }
}
