//! A call as the words of a line, in every way the notation lets it be spelled.

use crate::calls::{Call, Cause, Message};
use crate::lists::Random;

pub type Word = Vec<u8>;

/// Mostly spaces; a tab counts as one.
pub fn blanks(many: usize, random: &mut Random) -> Vec<u8> {
    let tabs = if random.chance(5) { 50 } else { 0 };
    (0..many).map(|_| if random.chance(tabs) { b'\t' } else { b' ' }).collect()
}

/// At least the digits the value needs, at most `most`, in either case.
fn hexadecimal(value: u32, most: usize, random: &mut Random) -> Word {
    let needed = (1..most).find(|digits| value >> (4 * digits) == 0).unwrap_or(most);
    let digits = if random.chance(80) { most } else { needed + random.below(most - needed + 1) };
    let mut word = format!("{value:0digits$x}").into_bytes();
    word.iter_mut().filter(|_| random.chance(50)).for_each(|digit| digit.make_ascii_uppercase());
    word
}

pub fn decimal(value: i64, random: &mut Random) -> Word {
    let sign = if value < 0 { "-" } else { "" };
    let zeros = if random.chance(3) { random.below(30) } else { 0 };
    format!("{sign}{}{}", "0".repeat(zeros), value.unsigned_abs()).into_bytes()
}

fn bytes(items: &[u8], random: &mut Random) -> Vec<Word> {
    items.iter().map(|byte| hexadecimal(u32::from(*byte), 2, random)).collect()
}

fn numbers(items: &[i16], random: &mut Random) -> Vec<Word> {
    items.iter().map(|number| signed(*number, random)).collect()
}

fn signed(number: i16, random: &mut Random) -> Word {
    if number == 0 && random.chance(1) {
        return b"-0".to_vec();
    }
    decimal(i64::from(number), random)
}

/// A buffer now and then gets a length up to two above what the notation allows.
fn resized<T: Copy>(part: &[T], filler: T, random: &mut Random) -> Vec<T> {
    let mut items = part.to_vec();
    if random.chance(3) {
        let any = random.below(67);
        let length = random.pick(&[any, any, 0, 63, 64, 65]);
        items.resize(length, filler);
    }
    items
}

fn entry(index: u16, sub: u8, random: &mut Random) -> Word {
    let mut word = hexadecimal(u32::from(index), 4, random);
    if sub != 0 || random.chance(50) {
        word.push(b':');
        word.extend(hexadecimal(u32::from(sub), if random.chance(70) && sub < 16 { 1 } else { 2 }, random));
    }
    word
}

fn command(code: u8, node: u8, random: &mut Random) -> Vec<Word> {
    let name: &[u8] = match code {
        1 => b"start",
        2 => b"stop",
        128 => b"pre-operational",
        129 => b"reset-node",
        130 => b"reset-communication",
        _ => b"command",
    };
    let node_word = decimal(i64::from(node), random);
    if name == b"command" || random.chance(30) {
        return vec![b"command".to_vec(), decimal(i64::from(code), random), node_word];
    }
    if node == 0 && random.chance(60) {
        return vec![name.to_vec()];
    }
    vec![name.to_vec(), node_word]
}

fn cause(cause: Cause) -> Word {
    match cause {
        Cause::InternalFailure => b"internal".to_vec(),
        Cause::CommunicationLoss => b"communication".to_vec(),
    }
}

pub fn create(number: u8, random: &mut Random) -> Vec<Word> {
    vec![b"create".to_vec(), decimal(i64::from(number), random)]
}

/// The number of a message, then bytes.
fn message(name: &[u8], message: Message, frame: &[u8], random: &mut Random) -> Vec<Word> {
    [vec![name.to_vec(), decimal(message as i64 + 1, random)], bytes(frame, random)].concat()
}

/// Eight bytes of 00 may be left out, and no byte at all is said by a slash.
fn transmit(named: Message, frame: &[u8], random: &mut Random) -> Vec<Word> {
    let kept = if random.chance(6) { &[] } else { frame };
    let frame = resized(kept, 0x77, random);
    if random.chance(30) {
        return message(b"transmit", named, &[], random);
    }
    let mut words = message(b"transmit", named, &frame, random);
    if frame.is_empty() {
        words.push(b"/".to_vec());
    }
    words
}

/// A reply buffer of eight bytes of 00 may be left out.
fn request(request: &[u8], reply: &[u8], random: &mut Random) -> Vec<Word> {
    let request = resized(request, 0x40, random);
    let mut words = [vec![b"request".to_vec()], bytes(&request, random)].concat();
    if random.chance(50) {
        let reply = resized(reply, 0x66, random);
        words.push(b"/".to_vec());
        words.extend(bytes(&reply, random));
    }
    words
}

fn sample(digital: &[u8], analogue: &[i16], events: &[u8], random: &mut Random) -> Vec<Word> {
    let digital = resized(digital, 0xFF, random);
    let analogue = resized(analogue, -7, random);
    let slash = || vec![b"/".to_vec()];
    let mut words =
        [vec![b"sample".to_vec()], bytes(&digital, random), slash(), numbers(&analogue, random)].concat();
    if random.chance(40) {
        let events = resized(events, 0x3C, random);
        words.extend([slash(), bytes(&events, random)].concat());
    }
    words
}

/// The words of a call; lent buffers that the notation may leave out are left out at times.
pub fn words_of(call: &Call, random: &mut Random) -> Vec<Word> {
    match call {
        Call::Read { index, sub } => vec![entry(*index, *sub, random)],
        Call::Write { index, sub, data } => {
            let mut data = resized(data.part(), 0xA5, random);
            if random.chance(1) {
                data.resize(random.below(520), 0x0A);
            }
            [vec![entry(*index, *sub, random), b"=".to_vec()], bytes(&data, random)].concat()
        }
        Call::Sample { digital, analogue, events } => {
            sample(digital.part(), analogue.part(), events.part(), random)
        }
        Call::Command { code, node } => command(*code, *node, random),
        Call::Raise(named) => vec![b"raise".to_vec(), cause(*named)],
        Call::Clear(named) => vec![b"clear".to_vec(), cause(*named)],
        Call::Drive { .. } if random.chance(50) => vec![b"drive".to_vec()],
        Call::Drive { lines, channels } => {
            let lines = resized(lines.part(), 0x99, random);
            let channels = resized(channels.part(), 300, random);
            let slash = vec![b"/".to_vec()];
            [vec![b"drive".to_vec()], bytes(&lines, random), slash, numbers(&channels, random)].concat()
        }
        Call::Receive { message: named, frame } => {
            let frame = resized(frame.part(), 0x77, random);
            message(b"receive", *named, &frame, random)
        }
        Call::Transmit { message, frame } => transmit(*message, frame.part(), random),
        Call::Request { request: asked, reply } => request(asked.part(), reply.part(), random),
        Call::Heartbeat { node } => vec![b"heartbeat".to_vec(), decimal(i64::from(*node), random)],
        Call::Elapsed { milliseconds } => {
            vec![b"elapsed".to_vec(), decimal(i64::from(*milliseconds), random)]
        }
    }
}
