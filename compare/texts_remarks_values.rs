//! Sub-indices and values, allowed and refused, for calls that aim at the words in parentheses.

use crate::lists::Random;
use crate::lists_objects::Object;
use crate::paper_objects::object;

pub fn is_read_only(index: u16, sub: u8) -> bool {
    object(index).is_some_and(|object| object.read_only(sub))
}

/// One that is no entry count; often its first or last, so that what is read was written before.
pub fn entry_of(object: Object, random: &mut Random) -> u8 {
    if object.last == 0 {
        return 0;
    }
    let any = 1 + random.below(usize::from(object.last)) as u8;
    random.pick(&[1, any, any, object.last])
}

/// Of so many lines, some but not all: any, one, all but one, or a run.
pub fn some_lines(width: usize, random: &mut Random) -> u32 {
    let all = u32::MAX >> (32 - width);
    let one = 1 << random.below(width);
    let run = (all >> random.below(width)) << random.below(width);
    let any = random.next() as u32;
    let lines = random.pick(&[any, any, any & any >> 16, one, !one, run, !run]) & all;
    if lines == 0 || lines == all {
        one
    } else {
        lines
    }
}

/// Of any number of bits, so that small ones come as often as large ones, and in both signs.
fn number(bits: usize, random: &mut Random) -> i64 {
    let magnitude = (random.next() >> (64 - bits)) as i64 >> random.below(bits);
    random.pick(&[magnitude, -magnitude, -magnitude - 1])
}

/// What the entries of an object take.
pub fn allowed_value(index: u16, random: &mut Random) -> u32 {
    let any = random.next() as u32;
    match index {
        0x1029 => any % 3,
        0x2003 => 1 + any % 255,
        0x6005 | 0x6423 | 0x6443 => any % 2,
        0x6421 => any % 32,
        0x6020..=0x607F | 0x6220..=0x627F => any % 2,
        0x6411 | 0x6444 => number(15, random) as u32,
        0x6424 | 0x6425 => number(31, random) as u32,
        // Mostly of a node that no other entry names.
        0x1016 => random.pick(&[any % 128 << 16 | any >> 24, any >> 16, 0]),
        _ => any >> random.below(32),
    }
}

/// Refused by the value alone.
pub fn refused_value(random: &mut Random) -> (Object, u8, u32) {
    let any = random.next() as u32;
    let power = 1 << (15 + random.below(16));
    let beyond: i64 = random.pick(&[32_768, power, i64::from(i32::MAX)]);
    let (index, last, size, value) = match random.below(16) {
        0..5 => (0x6444, 8, 4, beyond as u32),
        5..10 => (0x6444, 8, 4, (-beyond - 1) as u32),
        10 => (0x6443, 8, 1, 2 + any % 254),
        11 => (0x6421, 16, 1, 32 + any % 224),
        12 => (0x2003, 0, 1, 0),
        13 => (0x1029, 1, 1, 3 + any % 253),
        14 => (random.pick(&[0x6005, 0x6423]), 0, 1, 2 + any % 254),
        _ => (random.pick(&[0x6030, 0x6220, 0x6270]), 128, 1, 2 + any % 254),
    };
    let object = Object { index, last, size };
    (object, entry_of(object, random), value)
}
