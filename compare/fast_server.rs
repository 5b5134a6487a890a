//! Item 3 of document 02 for speed: what a first byte asks is found by one load, and a reply is one number of
//! 64 bits.

use crate::calls::{Answer, Machine};
use crate::fast::{Device, STOPPED};
use crate::fast_kinds::{kind, MAPPING, SHAPES};

// What a first byte asks; 1 to 4 are downloads of so many bytes.
const DOWNLOAD_OWN_SIZE: u8 = 0;
const UPLOAD: u8 = 5;
const ABORT: u8 = 6;
const UNKNOWN: u8 = 7;

const fn asked() -> [u8; 256] {
    let mut asked = [UNKNOWN; 256];
    let mut low = 0;
    while low < 0x20 {
        asked[0x40 + low] = UPLOAD;
        asked[0x80 + low] = ABORT;
        match low % 4 {
            2 => asked[0x20 + low] = DOWNLOAD_OWN_SIZE,
            3 => asked[0x20 + low] = [4, 3, 2, 1][low / 4 % 4],
            _ => {}
        }
        low += 1;
    }
    asked
}

static ASKED: [u8; 256] = asked();

/// Of an entry that can be written; of others it does not matter.
fn own_size(index: u16, sub: u8) -> usize {
    let kind = kind(index);
    if kind >= MAPPING && sub == 0 {
        return 1;
    }
    usize::from(SHAPES[usize::from(kind)].1)
}

impl Device {
    pub fn serve(&mut self, request: &[u8], reply: &mut [u8]) -> Answer {
        let Ok(request) = <&[u8; 8]>::try_from(request) else {
            return Answer::refused(7);
        };
        let Ok(reply) = <&mut [u8; 8]>::try_from(reply) else {
            return Answer::refused(5);
        };
        let asked = ASKED[usize::from(request[0])];
        if self.state == STOPPED || asked == ABORT {
            return Answer::default();
        }
        let whole = u64::from_le_bytes(*request);
        let (index, sub) = ((whole >> 8) as u16, (whole >> 24) as u8);
        let (first, last) = match asked {
            UPLOAD => match self.read(index, sub) {
                Answer { number: 0, value, size, .. } => (0x53 - 4 * size as u64, value),
                refused => (0x80, refused.number),
            },
            UNKNOWN => (0x80, 0x0504_0001),
            told => {
                let size = if told == DOWNLOAD_OWN_SIZE { own_size(index, sub) } else { usize::from(told) };
                let refusal = self.write(index, sub, &request[4..4 + size]).number;
                (if refusal == 0 { 0x60 } else { 0x80 }, refusal)
            }
        };
        *reply = (first | whole & 0xFFFF_FF00 | u64::from(last) << 32).to_le_bytes();
        Answer { count: 8, ..Answer::default() }
    }
}
