//! The words in parentheses behind an answer: what they say of the device before a call, the call and its answer.

use crate::calls::{Answer, Message};
use crate::notation::Asked;
use crate::paper::Device;
use crate::paper_node::State;
use crate::paper_objects::object;
use crate::paper_server::{service, size_of_download, Service};
use crate::words_entries::{entry_words, written_words};

/// None where the answer line has no such words.
pub fn words_after(before: &Device, asked: &Asked, answer: &Answer) -> Option<String> {
    if answer.number != 0 {
        return Some(meaning_of(asked, answer.number));
    }
    match asked {
        Asked::Read { index, sub } => Some(entry_words(object(*index)?, *sub, answer.value)),
        Asked::Write { index, sub, data } => Some(written_words(before, object(*index)?, *sub, data)),
        Asked::Command { node, .. } => {
            let obeyed = *node == 0 || *node == before.node.number;
            (!obeyed).then(|| "for another node, nothing done".into())
        }
        Asked::Receive { message, frame } => receive_words(before, *message, frame.len()),
        Asked::Transmit { .. } => {
            let operational = before.node.state == State::Operational;
            (!operational).then(|| "node not operational".into())
        }
        Asked::Request { request, .. } => Some(request_words(before, request)),
        Asked::Heartbeat(node) => {
            let named = before.watches.iter().any(|watch| watch.is_for(*node));
            (!named).then(|| "no entry watches this node".into())
        }
        Asked::Elapsed(milliseconds) => elapsed_words(before, *milliseconds),
        _ => None,
    }
}

fn receive_words(before: &Device, message: Message, length: usize) -> Option<String> {
    if before.node.state != State::Operational {
        return Some("node not operational, nothing written".into());
    }
    let short = length < before.receive_mappings[message as usize].bytes();
    short.then(|| "frame shorter than its mapping, nothing written".into())
}

fn elapsed_words(before: &Device, milliseconds: u32) -> Option<String> {
    let left: Vec<u64> = before.watches.iter().filter_map(|watch| watch.left()).collect();
    if left.is_empty() {
        return Some("no watch started".into());
    }
    let expired = left.iter().any(|left| *left <= u64::from(milliseconds));
    expired.then(|| "watch expired".into())
}

/// Of an accepted request: the words of the plain call that it is, or why it is none.
fn request_words(before: &Device, request: &[u8]) -> String {
    if before.node.state == State::Stopped {
        return "node stopped, no reply".into();
    }
    let [first, low, high, sub, ref data @ ..] = *request else { unreachable!() };
    let index = u16::from_le_bytes([low, high]);
    let mut plain = match service(first) {
        Service::Abort => return "client's abort, no reply".into(),
        Service::AnythingElse => return "abort: not an expedited transfer".into(),
        Service::Upload => Asked::Read { index, sub },
        Service::Download { told } => {
            Asked::Write { index, sub, data: data[..size_of_download(told, index, sub)].to_vec() }
        }
    };
    let answer = plain.play(&mut before.clone());
    let words = words_after(before, &plain, &answer).unwrap_or_default();
    match answer.number {
        0 => words,
        _ => format!("abort: {words}"),
    }
}

/// What a refusal means, and what would not have met it.
fn meaning_of(asked: &Asked, number: u32) -> String {
    let meaning = meaning_of_number(asked, number);
    let (Asked::Read { index, sub } | Asked::Write { index, sub, .. }) = asked else {
        return meaning.into();
    };
    match (number, object(*index)) {
        (0x0609_0011, Some(object)) => format!("{meaning}, the last is {}", object.last_sub_index()),
        (0x0607_0012 | 0x0607_0013, Some(object)) => match object.size(*sub) {
            1 => format!("{meaning}, 1 byte wanted"),
            size => format!("{meaning}, {size} bytes wanted"),
        },
        _ => meaning.into(),
    }
}

/// The papers' rows, top to bottom: document 01's table, then Items 1, 3 and 5.
fn meaning_of_number(asked: &Asked, number: u32) -> &'static str {
    match (number, asked) {
        (0x0800_0022, _) => "node stopped",
        (0x0602_0000, _) => "no such object",
        (0x0609_0011, _) => "no such sub-index",
        (0x0601_0002, _) => "read only",
        (0x0607_0012, _) => "data too long",
        (0x0607_0013, _) => "data too short",
        (0x0609_0030, _) => "value not allowed",
        (0x0609_0031, _) => "value too high",
        (0x0609_0032, _) => "value too low",
        (1, _) => "node number out of range",
        (2, _) => "no such command",
        (3, _) => "not 16 digital bytes",
        (4, _) => "not 16 analogue numbers",
        (5, Asked::Transmit { .. }) => "frame buffer not 8 bytes",
        (5, Asked::Request { .. }) => "reply buffer not 8 bytes",
        (5, _) => "event buffer not 16 bytes",
        (6, _) => "not 16 bytes and 8 numbers",
        (0x0601_0000, _) => "count is not 0",
        (0x0604_0041, _) => "entry cannot be mapped",
        (0x0604_0042, _) => "more than 8 entries or 64 bits",
        (7, _) => "request not 8 bytes",
        (0x0604_0043, _) => "node watched by another entry",
        _ => unreachable!(),
    }
}
