//! The object dictionary of document 01 and Items 1, 2 and 5 of document 02: what an index names, its
//! entries, their sizes and values.

use crate::paper_mappings::Direction;

#[derive(Clone, Copy, PartialEq)]
pub enum Attribute {
    Input,
    InputPolarity,
    InputFilter,
    AnyChange,
    LowToHigh,
    HighToLow,
    Output,
    OutputPolarity,
    ErrorMode,
    ErrorValue,
    OutputFilterMask,
}

/// The table's eleven rows of four indices, by width 1, 8, 16, 32.
pub const TABLE: [(Attribute, [u16; 4]); 11] = [
    (Attribute::Input, [0x6020, 0x6000, 0x6100, 0x6120]),
    (Attribute::InputPolarity, [0x6030, 0x6002, 0x6102, 0x6122]),
    (Attribute::InputFilter, [0x6038, 0x6003, 0x6103, 0x6123]),
    (Attribute::AnyChange, [0x6050, 0x6006, 0x6106, 0x6126]),
    (Attribute::LowToHigh, [0x6060, 0x6007, 0x6107, 0x6127]),
    (Attribute::HighToLow, [0x6070, 0x6008, 0x6108, 0x6128]),
    (Attribute::Output, [0x6220, 0x6200, 0x6300, 0x6320]),
    (Attribute::OutputPolarity, [0x6240, 0x6202, 0x6302, 0x6322]),
    (Attribute::ErrorMode, [0x6250, 0x6206, 0x6306, 0x6326]),
    (Attribute::ErrorValue, [0x6260, 0x6207, 0x6307, 0x6327]),
    (Attribute::OutputFilterMask, [0x6270, 0x6208, 0x6308, 0x6328]),
];
pub const WIDTHS: [usize; 4] = [1, 8, 16, 32];

#[derive(Clone, Copy)]
pub enum Object {
    Lines(Attribute, usize),
    DeviceType,
    ErrorRegister,
    ErrorBehaviour,
    DigitalInterrupts,
    AnalogueInterrupts,
    FilterLength,
    InterruptSource,
    /// 6401, 6421, 6424 to 6428
    InputChannel(u16),
    /// 6411, 6443, 6444
    OutputChannel(u16),
    /// 1600 to 1603 and 1A00 to 1A03, each direction's counted from 0.
    Mapping(Direction, usize),
    HeartbeatWatch,
}

pub fn object(index: u16) -> Option<Object> {
    for (attribute, indices) in TABLE {
        for (column, width) in WIDTHS.into_iter().enumerate() {
            if indices[column] == index {
                return Some(Object::Lines(attribute, width));
            }
        }
    }
    match index {
        0x1000 => Some(Object::DeviceType),
        0x1001 => Some(Object::ErrorRegister),
        0x1029 => Some(Object::ErrorBehaviour),
        0x6005 => Some(Object::DigitalInterrupts),
        0x6423 => Some(Object::AnalogueInterrupts),
        0x2003 => Some(Object::FilterLength),
        0x1016 => Some(Object::HeartbeatWatch),
        0x6422 => Some(Object::InterruptSource),
        0x6401 | 0x6421 | 0x6424..=0x6428 => Some(Object::InputChannel(index)),
        0x6411 | 0x6443 | 0x6444 => Some(Object::OutputChannel(index)),
        0x1600..=0x1603 => Some(Object::Mapping(Direction::Receive, usize::from(index - 0x1600))),
        0x1A00..=0x1A03 => Some(Object::Mapping(Direction::Transmit, usize::from(index - 0x1A00))),
        _ => None,
    }
}

impl Object {
    /// The entry count at sub-index 0; none where sub-index 0 is the value itself.
    pub fn entries(self) -> Option<u8> {
        match self {
            Object::Lines(_, width) => Some((128 / width) as u8),
            Object::InputChannel(_) => Some(16),
            Object::OutputChannel(_) => Some(8),
            Object::HeartbeatWatch => Some(4),
            Object::ErrorBehaviour | Object::InterruptSource => Some(1),
            _ => None,
        }
    }

    pub fn last_sub_index(self) -> u8 {
        match self {
            Object::Mapping(..) => 8,
            _ => self.entries().unwrap_or(0),
        }
    }

    pub fn read_only(self, sub: u8) -> bool {
        if self.entries().is_some() && sub == 0 {
            return true;
        }
        matches!(
            self,
            Object::DeviceType
                | Object::ErrorRegister
                | Object::InterruptSource
                | Object::InputChannel(0x6401)
                | Object::Lines(Attribute::Input, _)
        )
    }

    pub fn size(self, sub: u8) -> usize {
        if self.entries().is_some() && sub == 0 {
            return 1;
        }
        match self {
            Object::Lines(_, width) => width.div_ceil(8),
            Object::DeviceType | Object::InterruptSource | Object::HeartbeatWatch => 4,
            Object::InputChannel(0x6401) | Object::OutputChannel(0x6411) => 2,
            Object::InputChannel(0x6421) | Object::OutputChannel(0x6443) => 1,
            Object::InputChannel(_) | Object::OutputChannel(_) => 4,
            Object::Mapping(..) if sub != 0 => 4,
            _ => 1,
        }
    }

    /// Without what depends on the entries that stand there: Item 1's, and Item 5's two entries for one node.
    pub fn value_refusal(self, value: u32) -> Option<u32> {
        let outside = match self {
            Object::Lines(_, 1) => value > 1,
            Object::ErrorBehaviour => value > 2,
            Object::DigitalInterrupts | Object::AnalogueInterrupts => value > 1,
            Object::FilterLength => value == 0,
            Object::OutputChannel(0x6443) => value > 1,
            Object::InputChannel(0x6421) => value & 0xE0 != 0,
            // "Bits 24 to 31 set: 06090030."
            Object::HeartbeatWatch => value >> 24 != 0,
            _ => false,
        };
        if outside {
            return Some(0x0609_0030);
        }
        if let Object::OutputChannel(0x6444) = self {
            if (value as i32) > 32_767 {
                return Some(0x0609_0031);
            }
            if (value as i32) < -32_768 {
                return Some(0x0609_0032);
            }
        }
        None
    }
}
