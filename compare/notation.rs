//! The notation of a list of calls, read from its text alone: a line of bytes becomes nothing, a
//! call with its buffers, expected words, or not understood; a played call becomes its answer line.

use crate::calls::{Answer, Cause, Machine, Message};
use crate::notation_messages::{message_call, Complaint};
use crate::notation_server::request_call;
use crate::notation_watch::watch_call;

const MOST_BYTES_OF_A_LINE: usize = 1024;
pub const MOST_ITEMS_OF_A_BUFFER: usize = 64;
pub const BYTE_ORDER_MARK: &[u8] = b"\xEF\xBB\xBF";

/// A call with its lent buffers; after it is played they hold what it left in them.
#[derive(Clone, Debug, PartialEq)]
pub enum Asked {
    Create(u8),
    Read { index: u16, sub: u8 },
    Write { index: u16, sub: u8, data: Vec<u8> },
    Sample { digital: Vec<u8>, analogue: Vec<i16>, events: Vec<u8> },
    Command { code: u8, node: u8 },
    Raise(Cause),
    Clear(Cause),
    Drive { lines: Vec<u8>, channels: Vec<i16> },
    Receive { message: Message, frame: Vec<u8> },
    Transmit { message: Message, frame: Vec<u8> },
    Request { request: Vec<u8>, reply: Vec<u8> },
    Heartbeat(u8),
    Elapsed(u32),
}

pub enum Line<'a> {
    Nothing,
    Call(Asked),
    /// What the last answer line has to be, word by word.
    Expects(Vec<&'a [u8]>),
    NotUnderstood(Complaint),
}

/// The lines of a list, each as it stands before its newline; the last may lack the newline.
pub fn lines_of(list: &[u8]) -> impl Iterator<Item = &[u8]> {
    // A second mark belongs to the first line.
    let list = list.strip_prefix(BYTE_ORDER_MARK).unwrap_or(list);
    list.split_inclusive(|byte| *byte == b'\n').map(|line| line.strip_suffix(b"\n").unwrap_or(line))
}

/// A tab counts as a space.
pub fn words_in(text: &[u8]) -> Vec<&[u8]> {
    text.split(|byte| matches!(byte, b' ' | b'\t')).filter(|word| !word.is_empty()).collect()
}

/// What stands before the first such byte, or all.
fn before(text: &[u8], mark: u8) -> &[u8] {
    text.split(|byte| *byte == mark).next().unwrap_or(text)
}

/// The words of an answer, written or expected; those in parentheses are for a person.
pub fn answer_words(text: &[u8]) -> Vec<&[u8]> {
    words_in(before(text, b'('))
}

/// What a line says, given without its newline.
pub fn understand(line: &[u8]) -> Line<'_> {
    // A carriage return is a byte before the newline, so it counts.
    if line.len() > MOST_BYTES_OF_A_LINE {
        return Line::NotUnderstood(None);
    }
    // One is passed over, also where the list ends without a newline; a second is a byte like any other.
    let line = line.strip_suffix(b"\r").unwrap_or(line);
    let said = before(line, b'#');
    let words = words_in(said);
    match words.first() {
        // A line of spaces, also before a comment, says as little as an empty one.
        None => Line::Nothing,
        Some([b'>', ..]) => {
            let sign = said.iter().position(|byte| *byte == b'>').unwrap_or(0);
            Line::Expects(answer_words(&said[sign + 1..]))
        }
        Some(_) => {
            let later = message_call(&words).or_else(|| request_call(&words)).or_else(|| watch_call(&words));
            match later.unwrap_or_else(|| call_of(&words).ok_or(None)) {
                Ok(asked) => Line::Call(asked),
                Err(complaint) => Line::NotUnderstood(complaint),
            }
        }
    }
}

fn call_of(words: &[&[u8]]) -> Option<Asked> {
    let (first, rest) = words.split_first()?;
    match (*first, rest) {
        (b"create", [number]) => Some(Asked::Create(number_of_a_byte(number)?)),
        (b"command", [code, node]) => {
            Some(Asked::Command { code: number_of_a_byte(code)?, node: number_of_a_byte(node)? })
        }
        (b"start", node) => named_command(1, node),
        (b"stop", node) => named_command(2, node),
        (b"pre-operational", node) => named_command(128, node),
        (b"reset-node", node) => named_command(129, node),
        (b"reset-communication", node) => named_command(130, node),
        (b"raise", [cause]) => Some(Asked::Raise(named_cause(cause)?)),
        (b"clear", [cause]) => Some(Asked::Clear(named_cause(cause)?)),
        (b"sample", parts) => sample_of(parts),
        (b"drive", parts) => drive_of(parts),
        (entry, []) => {
            let (index, sub) = entry_named(entry)?;
            Some(Asked::Read { index, sub })
        }
        (entry, [b"=", data @ ..]) => {
            let (index, sub) = entry_named(entry)?;
            // The row says any number of bytes; only the line's length bounds them.
            Some(Asked::Write { index, sub, data: items_of(data, data_byte)? })
        }
        _ => None,
    }
}

fn named_command(code: u8, node: &[&[u8]]) -> Option<Asked> {
    match node {
        [] => Some(Asked::Command { code, node: 0 }),
        [node] => Some(Asked::Command { code, node: number_of_a_byte(node)? }),
        _ => None,
    }
}

fn named_cause(word: &[u8]) -> Option<Cause> {
    match word {
        b"internal" => Some(Cause::InternalFailure),
        b"communication" => Some(Cause::CommunicationLoss),
        _ => None,
    }
}

fn sample_of(words: &[&[u8]]) -> Option<Asked> {
    let parts: Vec<&[&[u8]]> = words.split(|word| *word == b"/").collect();
    let (digital, analogue, events) = match parts[..] {
        [digital, analogue] => (digital, analogue, vec![0; 16]),
        [digital, analogue, events] => (digital, analogue, buffer_of(events, data_byte)?),
        _ => return None,
    };
    Some(Asked::Sample {
        digital: buffer_of(digital, data_byte)?,
        analogue: buffer_of(analogue, signed_number)?,
        events,
    })
}

fn drive_of(words: &[&[u8]]) -> Option<Asked> {
    if words.is_empty() {
        return Some(Asked::Drive { lines: vec![0; 16], channels: vec![0; 8] });
    }
    let parts: Vec<&[&[u8]]> = words.split(|word| *word == b"/").collect();
    match parts[..] {
        [lines, channels] => Some(Asked::Drive {
            lines: buffer_of(lines, data_byte)?,
            channels: buffer_of(channels, signed_number)?,
        }),
        _ => None,
    }
}

/// The items of a lent buffer; none where one is wrong or where there are too many.
pub fn buffer_of<T>(words: &[&[u8]], item: fn(&[u8]) -> Option<T>) -> Option<Vec<T>> {
    if words.len() > MOST_ITEMS_OF_A_BUFFER {
        return None;
    }
    items_of(words, item)
}

pub fn items_of<T>(words: &[&[u8]], item: fn(&[u8]) -> Option<T>) -> Option<Vec<T>> {
    words.iter().map(|word| item(word)).collect()
}

/// `6200:1`, or `1001` with the sub-index 0.
fn entry_named(word: &[u8]) -> Option<(u16, u8)> {
    let mut parts = word.split(|byte| *byte == b':');
    let index = hexadecimal(parts.next()?, 4)? as u16;
    let sub = match parts.next() {
        None => 0,
        Some(digits) => hexadecimal(digits, 2)? as u8,
    };
    parts.next().is_none().then_some((index, sub))
}

pub fn data_byte(word: &[u8]) -> Option<u8> {
    hexadecimal(word, 2).map(|value| value as u8)
}

fn hexadecimal(digits: &[u8], most: usize) -> Option<u32> {
    if digits.is_empty() || digits.len() > most {
        return None;
    }
    let mut value = 0;
    for digit in digits {
        value = 16 * value + char::from(*digit).to_digit(16)?;
    }
    Some(value)
}

/// Unsigned, so that it takes no sign.
pub fn number_of_a_byte(word: &[u8]) -> Option<u8> {
    u8::try_from(decimal(word)?).ok()
}

/// A plus sign is no part of the notation; `-0` spells 0.
fn signed_number(word: &[u8]) -> Option<i16> {
    let value = match word.strip_prefix(b"-") {
        Some(digits) => -decimal(digits)?,
        None => decimal(word)?,
    };
    i16::try_from(value).ok()
}

pub fn decimal(digits: &[u8]) -> Option<i64> {
    if digits.is_empty() {
        return None;
    }
    let mut value = 0;
    for digit in digits {
        let next = 10 * value + i64::from(char::from(*digit).to_digit(10)?);
        // Any number of digits may follow, and no type of the notation holds so much.
        value = next.min(10_000_000_000);
    }
    Some(value)
}

impl Asked {
    pub fn play<M: Machine>(&mut self, device: &mut M) -> Answer {
        match self {
            Asked::Create(number) => {
                let (answer, fresh) = M::create(*number);
                *device = fresh;
                Answer::refused(answer)
            }
            Asked::Read { index, sub } => device.read(*index, *sub),
            Asked::Write { index, sub, data } => device.write(*index, *sub, data),
            Asked::Sample { digital, analogue, events } => device.sample(digital, analogue, events),
            Asked::Command { code, node } => device.command(*code, *node),
            Asked::Raise(cause) => device.raise(*cause),
            Asked::Clear(cause) => device.clear(*cause),
            Asked::Drive { lines, channels } => device.drive(lines, channels),
            Asked::Receive { message, frame } => device.receive(*message, frame),
            Asked::Transmit { message, frame } => device.transmit(*message, frame),
            Asked::Request { request, reply } => device.request(request, reply),
            Asked::Heartbeat(node) => device.heartbeat(*node),
            Asked::Elapsed(milliseconds) => device.elapsed(*milliseconds),
        }
    }

    /// The answer line of a played call, up to the words in parentheses.
    pub fn answer_line(&self, answer: &Answer) -> String {
        let mut words = vec![number_as_words(answer.number)];
        match self {
            Asked::Read { .. } if answer.number == 0 => {
                words.push("=".into());
                words.extend(bytes_as_words(&answer.value.to_le_bytes()[..answer.size]));
            }
            Asked::Sample { events, .. } => {
                words.push("events".into());
                words.extend(bytes_as_words(events));
                words.push("/".into());
                let with_an_event = (1..=16).filter(|channel| answer.events >> (channel - 1) & 1 == 1);
                words.extend(with_an_event.map(|channel: u16| channel.to_string()));
            }
            Asked::Drive { lines, channels } => {
                words.push("lines".into());
                words.extend(bytes_as_words(lines));
                words.push("/".into());
                words.extend(channels.iter().map(i16::to_string));
            }
            Asked::Transmit { frame, .. } => words.extend(bytes_and_count("frame", frame, answer.count)),
            Asked::Request { reply, .. } => words.extend(bytes_and_count("reply", reply, answer.count)),
            _ => {}
        }
        words.join(" ")
    }
}

/// An abort code is told from the papers' small numbers by its size.
fn number_as_words(number: u32) -> String {
    if number > 0xFFFF {
        format!("{number:08X}")
    } else {
        number.to_string()
    }
}

/// A buffer as the call left it, and how many bytes the call says of it.
fn bytes_and_count(name: &str, bytes: &[u8], count: usize) -> Vec<String> {
    let (name, slash) = ([name.to_string()], ["/".to_string(), count.to_string()]);
    name.into_iter().chain(bytes_as_words(bytes)).chain(slash).collect()
}

fn bytes_as_words(bytes: &[u8]) -> impl Iterator<Item = String> + '_ {
    bytes.iter().map(|byte| format!("{byte:02X}"))
}
