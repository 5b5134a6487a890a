//! What the entries read, and where a write of them goes.

use crate::fast::{Device, FILTER_MASK, INPUT, INPUT_POLARITY, OUTPUT};
use crate::fast_kinds::*;
use crate::fast_mappings::FIRST_TRANSMIT;

impl Device {
    #[inline(always)]
    pub fn digital_value(&self, kind: u8, sub: u8) -> u32 {
        let (row, word, shift, ones) = window(kind, sub);
        let mut bits = self.rows[row][word];
        if row == INPUT {
            bits ^= self.rows[INPUT_POLARITY][word];
        }
        (bits >> shift & ones) as u32
    }

    pub fn digital_store(&mut self, kind: u8, sub: u8, value: u32) {
        let (row, word, shift, ones) = window(kind, sub);
        let mut places = ones << shift;
        if row == OUTPUT {
            places &= self.rows[FILTER_MASK][word];
        }
        let bits = &mut self.rows[row][word];
        *bits = (*bits & !places) | (u64::from(value) << shift & places);
    }

    #[inline(always)]
    pub fn value(&mut self, kind: u8, sub: u8) -> u32 {
        let n = usize::from(sub).wrapping_sub(1);
        match kind {
            DIGITAL..DIGITAL_INTERRUPTS => self.digital_value(kind, sub),
            DIGITAL_INTERRUPTS => u32::from(self.digital_interrupts),
            VALUE => u32::from(self.values[n] as u16),
            SELECTION => u32::from(self.selections[n]),
            SOURCE => u32::from(std::mem::take(&mut self.sources)),
            ANALOGUE_INTERRUPTS => u32::from(self.analogue_interrupts),
            LIMIT..OUTPUT_VALUE => self.limits[usize::from(kind - LIMIT)][n],
            OUTPUT_VALUE => u32::from(self.kept[n] as u16),
            OUTPUT_MODE => u32::from(self.modes >> n & 1),
            OUTPUT_ERROR => i32::from(self.errors[n]) as u32,
            DEVICE_TYPE => 0x000F_0191,
            ERROR_REGISTER => [0, 0x01, 0x11, 0x11][usize::from(self.causes)],
            FILTER_LENGTH => u32::from(self.filter_length),
            WATCH => self.watches.value(n),
            _ => u32::from(self.error_behaviour),
        }
    }

    /// The abort code where the value is refused, else 0.
    pub fn store(&mut self, kind: u8, sub: u8, value: u32) -> u32 {
        let n = usize::from(sub).wrapping_sub(1);
        let last = match kind {
            DIGITAL..DIGITAL_INTERRUPTS if (kind - DIGITAL) % 4 == 0 => 1,
            DIGITAL_INTERRUPTS | ANALOGUE_INTERRUPTS | OUTPUT_MODE => 1,
            SELECTION => 31,
            WATCH => 0x00FF_FFFF,
            ERROR_BEHAVIOUR => 2,
            _ => u32::MAX,
        };
        if value > last {
            return 0x0609_0030;
        }
        match kind {
            DIGITAL..DIGITAL_INTERRUPTS => self.digital_store(kind, sub, value),
            DIGITAL_INTERRUPTS => self.digital_interrupts = value as u8,
            SELECTION => self.selections[n] = value as u8,
            ANALOGUE_INTERRUPTS => self.analogue_interrupts = value as u8,
            LIMIT..OUTPUT_VALUE => self.limits[usize::from(kind - LIMIT)][n] = value,
            OUTPUT_VALUE => self.kept[n] = value as i16,
            OUTPUT_MODE => self.modes = (self.modes & !(1 << n)) | ((value as u8) << n),
            OUTPUT_ERROR => match i16::try_from(value as i32) {
                Ok(error) => self.errors[n] = error,
                Err(_) if (value as i32) > 0 => return 0x0609_0031,
                Err(_) => return 0x0609_0032,
            },
            FILTER_LENGTH if value == 0 => return 0x0609_0030,
            FILTER_LENGTH => {
                self.filter_length = value as u8;
                self.count_bits = self.count_bits.max((32 - value.leading_zeros()) as u8);
            }
            WATCH => return self.watches.write(n, value),
            _ => self.error_behaviour = value as u8,
        }
        0
    }

    /// The abort code where the write is refused, else 0.
    pub fn write_mapping(&mut self, mapping: usize, sub: u8, data: &[u8]) -> u32 {
        match number_of(data, if sub == 0 { 1 } else { 4 }) {
            Ok(value) => self.mappings[mapping].write(sub, value, mapping >= FIRST_TRANSMIT),
            Err(refusal) => refusal,
        }
    }
}

/// Data as a number, or why its length is refused.
pub fn number_of(data: &[u8], size: usize) -> Result<u32, u32> {
    if data.len() != size {
        return Err(if data.len() > size { 0x0607_0012 } else { 0x0607_0013 });
    }
    Ok(match *data {
        [a] => u32::from(a),
        [a, b] => u32::from(u16::from_le_bytes([a, b])),
        [a, b, c, d] => u32::from_le_bytes([a, b, c, d]),
        _ => 0,
    })
}
