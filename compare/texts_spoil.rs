//! What is wrong with a line: words and bytes left out, doubled, replaced or put in.

use crate::lists::Random;
use crate::texts_words::{decimal, Word};

/// Numbers at the edges of their types, entries and bytes with too many or no digits, words of
/// other calls, and bytes that are no part of the notation; a space stands between two.
const ODD_WORDS: &[u8] = b"-32769 -32768 -32767 32767 32768 65535 65536 -65536 127 128 254 255 256 257 261 \
    -1 -0 -00 -5 --5 5- - + +0 +5 0 00 000 0005 4294967295 4294967296 4294967301 -4294967297 \
    9223372036854775808 18446744073709551616 18446744073709551621 -18446744073709551617 0x10 1.5 1,000 1e3 1_0 \
    6200: :1 : 6200::1 6200:1:1 6200:100 6200:001 6200:-1 6200:+1 6200:g 06200:1 06200 16200:1 620g:1 6200;1 \
    6200.1 6200:1= =6200:1 ADD f FG G 100 0FF 0xF Fh .. = == =01 01= / // /1 1/ # ##x start drive internal \
    communication interna internals all Internal pre- reset reset_node \t \r \0 \x0B \xFF\xFE \xC2\xA0 \
    1 2 3 4 5 04 05 receive transmit receives transmi frame mapping request reply reques requests \
    heartbeat elapsed heartbeats heartbea elapse elapseds watch 99999999999 10000000000 42949672950 \
    > >> >0 0> ( ) (x) 0( (0 ? ! line expected events lines \xEF\xBB\xBF \xEF\xBB \xBF 0\t= \t0";
/// What a byte is replaced by where any byte would seldom hurt.
const TELLING_BYTES: &[u8] = b" #=/:-+>()0123456789abcdefABCDEFgGxz\t\r\0\x7F\x80\xEF\xBB\xBF\xFF\n";

pub fn odd_word(random: &mut Random) -> Word {
    let many = 1 + random.below(400);
    match random.below(40) {
        0 => vec![b'9'; many],
        1 => [vec![b'0'; many], b"7".to_vec()].concat(),
        2 => [b"-".to_vec(), vec![b'0'; many], b"7".to_vec()].concat(),
        3 => vec![random.next() as u8],
        4 => decimal(random.below(300) as i64, random),
        _ => {
            let words: Vec<&[u8]> = ODD_WORDS.split(|byte| *byte == b' ').collect();
            random.pick(&words).to_vec()
        }
    }
}

pub fn spoil_a_word(words: &mut Vec<Word>, random: &mut Random) {
    if words.is_empty() {
        return;
    }
    // The last words of a long line are as telling as the first two, where the shape stands.
    let any = random.below(words.len());
    let at = random.pick(&[any, any, 0, 1, words.len() - 1]).min(words.len() - 1);
    let odd = odd_word(random);
    match random.below(10) {
        0 => drop(words.remove(at)),
        1 => words.insert(at, words[at].clone()),
        2 | 3 => words[at] = odd,
        4 => words.insert(at, odd),
        5 => words.push(odd),
        6 => words[at].extend(odd),
        7 => words[at] = [odd, words[at].clone()].concat(),
        8 => words[at].make_ascii_uppercase(),
        _ => {
            let glued = words.drain(at..words.len().min(at + 2)).collect::<Vec<Word>>().concat();
            words.insert(at, glued);
        }
    }
}

pub fn spoil_a_byte(line: &mut Vec<u8>, random: &mut Random) {
    if line.is_empty() {
        return;
    }
    let at = random.below(line.len());
    let byte = if random.chance(80) { random.pick(TELLING_BYTES) } else { random.next() as u8 };
    match random.below(4) {
        0 => drop(line.remove(at)),
        1 => line.insert(at, line[at]),
        2 => line[at] = byte,
        _ => line.insert(random.below(line.len() + 1), byte),
    }
}
