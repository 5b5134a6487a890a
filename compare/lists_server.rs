//! The part of a random list that Item 3 asks for: reads and writes as a tool's requests, and requests that
//! are neither.

use crate::calls::{request_bytes, Call, Lent};
use crate::lists::Source;

const UPLOAD: u8 = 0x40;
const ABORT: u8 = 0x80;
const EXPEDITED_DOWNLOAD: u8 = 0x22;
const SIZE_TOLD: u8 = 1;
/// Segments and blocks, downloads that are not expedited, and a server's own first bytes.
const UNKNOWN: [u8; 20] = [
    0x00, 0x01, 0x0E, 0x10, 0x1F, 0x20, 0x21, 0x25, 0x2C, 0x30, 0x60, 0x62, 0x70, 0xA0, 0xA3, 0xA4, 0xC0,
    0xC2, 0xE0, 0xFF,
];

impl Source {
    /// A read or a write at times as a request; every other call as it is.
    pub fn perhaps_requested(&mut self, call: Call) -> Call {
        match call {
            Call::Read { index, sub } if self.random.chance(30) => self.upload(index, sub),
            Call::Write { index, sub, data } if self.random.chance(30) => {
                self.download(index, sub, data.part())
            }
            _ => call,
        }
    }

    /// Mostly 0, as CiA 301 wants them.
    fn reserved(&mut self, bits: u8) -> u8 {
        let any = self.random.next() as u8;
        self.random.pick(&[0, 0, any]) & bits
    }

    fn upload(&mut self, index: u16, sub: u8) -> Call {
        let first = UPLOAD | self.reserved(0x1F);
        let any = self.data_after(&[]);
        let data = self.random.pick(&[[0; 4], any]);
        self.request(first, index, sub, data)
    }

    /// Mostly it tells the size that the write has, else another one or none.
    fn download(&mut self, index: u16, sub: u8, data: &[u8]) -> Call {
        let any = 1 + self.random.below(4);
        let size = match data.len() {
            1..=4 if self.random.chance(92) => data.len(),
            _ => any,
        };
        let told = SIZE_TOLD | (4 - size as u8) << 2 | self.reserved(0x10);
        let untold = self.reserved(0x1C);
        let first = EXPEDITED_DOWNLOAD | if self.random.chance(70) { told } else { untold };
        let data = self.data_after(data);
        self.request(first, index, sub, data)
    }

    /// Four bytes that begin with these; the others are anything.
    fn data_after(&mut self, start: &[u8]) -> [u8; 4] {
        let any = self.random.next() as u32;
        let mut data = any.to_le_bytes();
        data.iter_mut().zip(start).for_each(|(byte, given)| *byte = *given);
        data
    }

    /// Mostly on an entry that is there, so that one taken for an upload or a download would do something.
    pub fn odd_request(&mut self) -> Call {
        let any = self.random.next() as u8;
        let first = match self.random.below(10) {
            0..4 => any,
            4..7 => ABORT | self.reserved(0x1F),
            _ => self.random.pick(&UNKNOWN),
        };
        let data = self.data_after(&[]);
        match self.write() {
            Call::Write { index, sub, .. } if self.random.chance(80) => self.request(first, index, sub, data),
            _ => {
                let [index, sub] = [self.random.next(), self.random.next()];
                self.request(any, index as u16, sub as u8, data)
            }
        }
    }

    fn request(&mut self, first: u8, index: u16, sub: u8, data: [u8; 4]) -> Call {
        let bytes = request_bytes(self.bytes(), first, (index, sub), data);
        let request = Lent::new(bytes, self.message_length());
        Call::Request { request, reply: Lent::new(self.bytes(), self.message_length()) }
    }

    /// Mostly eight bytes, else fewer or more.
    fn message_length(&mut self) -> usize {
        let any = self.random.below(25);
        match self.random.below(50) {
            0 => self.random.pick(&[7, 9, any]),
            1 => self.random.below(10),
            _ => 8,
        }
    }
}
