//! Entries of a mapping, good and odd ones. A direction is 0 for receive and 1 for transmit.

use crate::lists::Random;
use crate::lists_objects::{Object, DIGITAL_OBJECTS};

/// Index, last sub-index and bytes of what each direction takes.
const MAPPABLE: [[(u16, u8, usize); 4]; 2] = [
    [(0x6200, 16, 1), (0x6300, 8, 2), (0x6320, 4, 4), (0x6411, 8, 2)],
    [(0x6000, 16, 1), (0x6100, 8, 2), (0x6120, 4, 4), (0x6401, 16, 2)],
];

fn entry_value(index: u16, sub: u8, bits: u8) -> u32 {
    u32::from(index) << 16 | u32::from(sub) << 8 | u32::from(bits)
}

/// An entry of so many bytes that the direction takes; 0 bytes are an entry of 0.
pub fn good_entry(direction: usize, bytes: usize, random: &mut Random) -> u32 {
    let fitting: Vec<(u16, u8, usize)> =
        MAPPABLE[direction].into_iter().filter(|(_, _, size)| *size == bytes).collect();
    if fitting.is_empty() {
        return 0;
    }
    let (index, last, _) = random.pick(&fitting);
    // The first and the last often, so that windows overlap and ends are met.
    let any = 1 + random.below(usize::from(last)) as u8;
    entry_value(index, random.pick(&[1, 1, any, any, last]), 8 * bytes as u8)
}

/// An entry that names some object rightly, with its own length; seldom one that the direction takes.
fn entry_of_any_object(objects: &[Object], random: &mut Random) -> u32 {
    // The digital objects are so many that half are drawn from the others alone.
    let first = random.pick(&[0, DIGITAL_OBJECTS]);
    let object = random.pick(&objects[first..]);
    let any = random.below(usize::from(object.last) + 1) as u8;
    let sub = random.pick(&[any, object.last.min(1), object.last]);
    let one_bit = object.last == 128 && random.chance(50);
    entry_value(object.index, sub, if one_bit { 1 } else { 8 * object.size as u8 })
}

/// The 1-bit windows of the row that each direction takes.
const ONE_BIT: [u16; 2] = [0x6220, 0x6020];
/// Their value stands at sub-index 0.
const DEVICE_WIDE: [u16; 3] = [0x2003, 0x6005, 0x6423];
/// Dummies, gaps between the rows, a communication parameter.
const NO_OBJECTS: [u16; 8] = [0x0001, 0x0002, 0x0005, 0x0007, 0x6201, 0x6400, 0x6412, 0x1400];
/// Lengths at and beside those that some entry has.
const LENGTHS: [u8; 18] = [0, 1, 2, 4, 7, 8, 8, 9, 15, 16, 16, 17, 24, 31, 32, 33, 64, 128];
/// Values of which not all is 0, yet not enough is there.
const NEARLY_ZERO: [u32; 9] = [1, 8, 16, 0x100, 0x0108, 0x1_0000, 0x6200_0000, 0x6000_0100, 0x6401_0000];

/// A good entry with one thing wrong, or one that is far from good.
pub fn odd_entry(direction: usize, objects: &[Object], random: &mut Random) -> u32 {
    let (index, last, size) = random.pick(&MAPPABLE[direction]);
    let bits = 8 * size as u8;
    let sub = 1 + random.below(usize::from(last)) as u8;
    let good = entry_value(index, sub, bits);
    match random.below(25) {
        0..3 => entry_value(index, random.pick(&[last + 1, last + 1, last + 2, 2 * last, 128, 255]), bits),
        3..5 => entry_value(index, 0, random.pick(&[8, bits])),
        5..8 => entry_value(index, sub, random.pick(&LENGTHS)),
        8..10 => good_entry(1 - direction, random.pick(&[1, 2, 4]), random),
        10 => entry_value(ONE_BIT[direction], sub, random.pick(&[1, 8])),
        11..17 => entry_of_any_object(objects, random),
        17..19 => entry_value(random.pick(&NO_OBJECTS), random.pick(&[0, 1, sub]), random.pick(&LENGTHS)),
        19 => random.pick(&NEARLY_ZERO),
        20 => good.swap_bytes(),
        21 => good.rotate_left(16),
        22 => good ^ 1 << random.below(32),
        23 => entry_value(random.pick(&DEVICE_WIDE), random.pick(&[0, 0, 1, sub]), random.pick(&[8, 16])),
        _ => random.next() as u32,
    }
}

/// Sizes of entries within this many bytes, entries of 0 among them; mostly they fill them all.
pub fn sizes_within(bytes: usize, random: &mut Random) -> Vec<usize> {
    let widths = random.pick(&[
        [0, 1, 1, 2, 2, 4, 4, 4],
        [0, 0, 1, 1, 1, 1, 2, 2],
        [0, 1, 2, 4, 4, 4, 4, 4],
        [1; 8],
        [2; 8],
        [4; 8],
    ]);
    let mut sizes = Vec::new();
    let mut left = bytes;
    while left > 0 && sizes.len() < 8 {
        let size = random.pick(&widths);
        if size <= left {
            sizes.push(size);
            left -= size;
        } else if widths.iter().all(|width| *width > left || *width == 0) {
            break;
        }
    }
    sizes
}
