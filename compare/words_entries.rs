//! What an accepted read or write says of its entry: its name, its value where the entry is a number, and where a
//! write did less than its writer may think.

use crate::paper::Device;
use crate::paper_mappings::Direction;
use crate::paper_objects::{Attribute, Object};

/// The entry's name, and its value where it is a number.
pub fn entry_words(object: Object, sub: u8, value: u32) -> String {
    match object {
        Object::Mapping(direction, message) => mapping_words(direction, message + 1, sub),
        _ if sub == 0 && object.entries().is_some() => format!("number of entries, {value}"),
        Object::Lines(attribute, 1) => format!("{}, line {sub}", row_name(attribute)),
        Object::Lines(attribute, width) => {
            let last = width * usize::from(sub);
            format!("{}, lines {} to {last}", row_name(attribute), last - width + 1)
        }
        Object::HeartbeatWatch => format!("watch, entry {sub}"),
        Object::InterruptSource => source_words(value),
        Object::DeviceType => format!("device type, {value}"),
        Object::ErrorRegister => format!("error register, {value}"),
        Object::ErrorBehaviour => format!("behaviour on communication loss, {value}"),
        Object::FilterLength => format!("filter length, {value}"),
        Object::DigitalInterrupts => format!("digital event enable, {value}"),
        Object::AnalogueInterrupts => format!("analogue event enable, {value}"),
        Object::InputChannel(index) | Object::OutputChannel(index) => {
            format!("{} of channel {sub}, {}", channel_name(index), channel_number(index, value))
        }
    }
}

/// The same of a write, with what it did less than its writer may think.
pub fn written_words(before: &Device, object: Object, sub: u8, data: &[u8]) -> String {
    let value = data.iter().rev().fold(0, |value, byte| value << 8 | u32::from(*byte));
    let words = entry_words(object, sub, value);
    let less = done_less(before, object, sub);
    if less.is_empty() {
        words
    } else {
        format!("{words}: {}", less.join("; "))
    }
}

fn done_less(before: &Device, object: Object, sub: u8) -> Vec<String> {
    let fault = before.node.in_fault();
    match object {
        Object::Lines(Attribute::Output, width) => {
            let masked = masked_lines(before, width, usize::from(sub));
            output_done_less(&masked, width, fault)
        }
        Object::Lines(Attribute::OutputPolarity, _) | Object::OutputChannel(0x6411) if fault => {
            vec!["in fault, driven later".into()]
        }
        Object::Lines(Attribute::ErrorMode | Attribute::ErrorValue, _)
        | Object::OutputChannel(0x6443 | 0x6444)
            if fault =>
        {
            vec!["in fault, used at the next fault".into()]
        }
        _ => Vec::new(),
    }
}

/// The numbers of the entry's lines whose output filter mask is 0, rising.
fn masked_lines(before: &Device, width: usize, sub: usize) -> Vec<usize> {
    let lines = width * (sub - 1) + 1..=width * sub;
    lines.filter(|line| !before.digital_outputs[line - 1].filter_mask).collect()
}

fn output_done_less(masked: &[usize], width: usize, fault: bool) -> Vec<String> {
    if masked.len() == width {
        return vec!["masked, not written".into()];
    }
    let mut less = Vec::new();
    if !masked.is_empty() {
        less.push(format!("masked, not written: {}", runs(masked)));
    }
    if fault {
        less.push("in fault, driven later".into());
    }
    less
}

/// Numbers that rise, those that follow each other together: `2, 5 to 8, 12`.
fn runs(numbers: &[usize]) -> String {
    let follows = |earlier: &usize, later: &usize| earlier + 1 == *later;
    let run = |run: &[usize]| match run {
        [first, .., last] => format!("{first} to {last}"),
        alone => alone.iter().map(usize::to_string).collect(),
    };
    numbers.chunk_by(follows).map(run).collect::<Vec<String>>().join(", ")
}

fn mapping_words(direction: Direction, number: usize, sub: u8) -> String {
    let direction = match direction {
        Direction::Receive => "receive",
        Direction::Transmit => "transmit",
    };
    match sub {
        0 => format!("{direction} mapping {number}, count"),
        _ => format!("{direction} mapping {number}, entry {sub}"),
    }
}

/// 6422:1 has bit n - 1 for channel n.
fn source_words(value: u32) -> String {
    let channels: Vec<String> = (1..=32)
        .filter(|channel| value >> (channel - 1) & 1 == 1)
        .map(|channel: u32| channel.to_string())
        .collect();
    match channels.is_empty() {
        true => "event sources: none".into(),
        false => format!("event sources: channels {}", channels.join(" ")),
    }
}

/// As document 01's table names its rows.
pub fn row_name(attribute: Attribute) -> &'static str {
    match attribute {
        Attribute::Input => "input",
        Attribute::InputPolarity => "input polarity",
        Attribute::InputFilter => "input filter",
        Attribute::AnyChange => "any change",
        Attribute::LowToHigh => "low-to-high",
        Attribute::HighToLow => "high-to-low",
        Attribute::Output => "output",
        Attribute::OutputPolarity => "output polarity",
        Attribute::ErrorMode => "error mode",
        Attribute::ErrorValue => "error value",
        Attribute::OutputFilterMask => "output filter mask",
    }
}

/// The objects of the analogue channels.
pub fn channel_name(index: u16) -> &'static str {
    match index {
        0x6401 => "input",
        0x6411 => "output",
        0x6421 => "event selection",
        0x6424 => "upper limit",
        0x6425 => "lower limit",
        0x6426 => "delta",
        0x6427 => "negative delta",
        0x6428 => "positive delta",
        0x6443 => "error mode",
        0x6444 => "error value",
        _ => unreachable!(),
    }
}

/// "6401 value (2 bytes, signed", "6424 upper limit U and 6425 lower limit L (4 bytes, signed)"; 6411 and 6444 too.
fn channel_number(index: u16, value: u32) -> String {
    match index {
        0x6401 | 0x6411 => (value as u16 as i16).to_string(),
        0x6424 | 0x6425 | 0x6444 => (value as i32).to_string(),
        _ => value.to_string(),
    }
}
