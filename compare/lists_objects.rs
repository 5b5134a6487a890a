//! What random lists know of the object dictionary.

use crate::lists_mappings::MAPPINGS;

/// An object of the dictionary: index, last sub-index, size of an entry at 1 or above in bytes.
#[derive(Clone, Copy)]
pub struct Object {
    pub index: u16,
    pub last: u8,
    pub size: usize,
}

/// How many digital objects stand first.
pub const DIGITAL_OBJECTS: usize = 44;
/// How many stand behind those of the analogue channels, before the mappings.
pub const DEVICE_WIDE_OBJECTS: usize = 8;

/// Every object of document 01 and Items 2 and 5, then the mappings.
pub fn objects() -> Vec<Object> {
    let mut all = Vec::new();
    let one_bit = [0x6020, 0x6030, 0x6038, 0x6050, 0x6060, 0x6070, 0x6220, 0x6240, 0x6250, 0x6260, 0x6270];
    let wider = [0x00, 0x02, 0x03, 0x06, 0x07, 0x08, 0x200, 0x202, 0x206, 0x207, 0x208];
    for row in 0..11 {
        all.push(Object { index: one_bit[row], last: 128, size: 1 });
        all.push(Object { index: 0x6000 + wider[row], last: 16, size: 1 });
        all.push(Object { index: 0x6100 + wider[row], last: 8, size: 2 });
        all.push(Object { index: 0x6120 + wider[row], last: 4, size: 4 });
    }
    for (index, size) in
        [(0x6401, 2), (0x6421, 1), (0x6424, 4), (0x6425, 4), (0x6426, 4), (0x6427, 4), (0x6428, 4)]
    {
        all.push(Object { index, last: 16, size });
    }
    for (index, size) in [(0x6411, 2), (0x6443, 1), (0x6444, 4)] {
        all.push(Object { index, last: 8, size });
    }
    for (index, last, size) in [(0x1000, 0, 4), (0x1016, 4, 4), (0x1029, 1, 1), (0x6422, 1, 4)] {
        all.push(Object { index, last, size });
    }
    all.extend([0x1001, 0x6005, 0x6423, 0x2003].map(|index| Object { index, last: 0, size: 1 }));
    all.extend(MAPPINGS.map(|index| Object { index, last: 8, size: 4 }));
    all
}
