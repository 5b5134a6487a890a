//! How often each kind of words in parentheses came in random lists, by how it was asked for.

use std::collections::BTreeMap;
use std::fmt;

use crate::notation::Asked;
use crate::paper_objects::{Attribute, TABLE};
use crate::paper_server::{service, Service};
use crate::play_expected::{Expected, Words};
use crate::words_entries::{channel_name, row_name};

/// How words are asked for: by a read, a write, a request that is one, or another call or request.
const WAYS: [&str; 6] = ["read", "write", "upload", "download", "untold", "other"];
type Counts = [u64; WAYS.len()];

const READS: &[usize] = &[0, 2];
const WRITES: &[usize] = &[1, 3, 4];
/// A plain write alone can bring no byte, or more than four.
const PLAIN_WRITES: &[usize] = &[1];
/// A download of untold size has the right one.
const WRITES_OF_A_SIZE: &[usize] = &[1, 3];
const ENTRIES: &[usize] = &[0, 1, 2, 3, 4];
const REQUESTS: &[usize] = &[2, 3, 4, 5];
const OTHERS: &[usize] = &[5];

/// Words as they may come, and in which ways. A number in them stands for any number.
type Kind = (String, &'static [usize]);

#[derive(Default)]
pub struct WordTally {
    came: BTreeMap<String, Counts>,
}

fn way_of(asked: &Asked) -> usize {
    match asked {
        Asked::Read { .. } => 0,
        Asked::Write { .. } => 1,
        Asked::Request { request, .. } => match request.first().map(|first| service(*first)) {
            Some(Service::Upload) => 2,
            Some(Service::Download { told: Some(_) }) => 3,
            Some(Service::Download { told: None }) => 4,
            _ => 5,
        },
        _ => 5,
    }
}

/// The words with N for each number, and with `..` for lines and channels of any number; sizes and last
/// sub-indices are few, so they stay. An abort is counted with the refusal that it is.
fn kind_of(words: &str) -> String {
    let words = words.strip_prefix("abort: ").unwrap_or(words);
    if words.ends_with(" wanted") || words.contains(", the last is ") {
        return words.into();
    }
    let mut kind = String::new();
    for letter in words.chars() {
        match letter {
            '0'..='9' if kind.ends_with('N') => {}
            '0'..='9' => kind.push('N'),
            _ => kind.push(letter),
        }
    }
    if let Some((start, lines)) = kind.split_once("not written: ") {
        let rest = lines.split_once("; ").map_or(String::new(), |(_, rest)| format!("; {rest}"));
        return format!("{start}not written: ..{rest}");
    }
    match kind.split_once("channels N ") {
        Some((start, _)) => format!("{start}channels N .."),
        None => kind,
    }
}

impl WordTally {
    /// An answer line; one that answers no call has no words in parentheses.
    pub fn take(&mut self, line: &Expected) {
        let Some(asked) = &line.asked else {
            return;
        };
        let kind = match &line.words {
            Words::InParentheses(words) => kind_of(words),
            _ => "none".into(),
        };
        self.came.entry(kind).or_default()[way_of(asked)] += 1;
    }

    fn counts(&self, kind: &Kind) -> Counts {
        self.came.get(&kind_of(&kind.0)).copied().unwrap_or_default()
    }

    /// What never came though it can, and what came though it is of no kind.
    pub fn complaints(&self) -> Vec<String> {
        let kinds = all_kinds();
        let mut complaints = Vec::new();
        for kind in &kinds {
            let (words, counts) = (kind_of(&kind.0), self.counts(kind));
            let never = kind.1.iter().filter(|way| counts[**way] == 0);
            complaints.extend(never.map(|way| format!("by {} never came: {words}", WAYS[*way])));
        }
        let known: Vec<String> = kinds.iter().map(|kind| kind_of(&kind.0)).collect();
        let unknown = self.came.keys().filter(|came| !known.contains(came));
        complaints.extend(unknown.map(|came| format!("of no known kind came: {came}")));
        complaints
    }
}

fn all_kinds() -> Vec<Kind> {
    let mut kinds = kinds_of_rows();
    kinds.extend(kinds_of_channels());
    let given = |(ways, words): &(&'static [usize], &[&str])| -> Vec<Kind> {
        words.iter().map(|words| (words.to_string(), *ways)).collect()
    };
    kinds.extend(OTHER_KINDS.iter().flat_map(given));
    kinds
}

fn kinds_of_rows() -> Vec<Kind> {
    let mut kinds = Vec::new();
    for place in ["line 1", "lines 1 to 8"] {
        for (attribute, _) in TABLE {
            let ways = if attribute == Attribute::Input { READS } else { ENTRIES };
            kinds.push((format!("{}, {place}", row_name(attribute)), ways));
        }
        kinds.push((format!("output, {place}: masked, not written"), WRITES));
        for row in ["output", "output polarity"] {
            kinds.push((format!("{row}, {place}: in fault, driven later"), WRITES));
        }
        for row in ["error mode", "error value"] {
            kinds.push((format!("{row}, {place}: in fault, used at the next fault"), WRITES));
        }
    }
    for fault in ["", "; in fault, driven later"] {
        kinds.push((format!("output, lines 1 to 8: masked, not written: 2{fault}"), WRITES));
    }
    kinds
}

fn kinds_of_channels() -> Vec<Kind> {
    let mut kinds = Vec::new();
    for index in [0x6401, 0x6411, 0x6421, 0x6424, 0x6425, 0x6426, 0x6427, 0x6428, 0x6443, 0x6444] {
        let ways = if index == 0x6401 { READS } else { ENTRIES };
        let signed = matches!(index, 0x6401 | 0x6411 | 0x6424 | 0x6425 | 0x6444);
        for number in [1, -1].into_iter().filter(|number| signed || *number > 0) {
            let words = format!("{} of channel 1, {number}", channel_name(index));
            match index {
                0x6411 => kinds.push((format!("{words}: in fault, driven later"), WRITES)),
                0x6443 | 0x6444 => kinds.push((format!("{words}: in fault, used at the next fault"), WRITES)),
                _ => {}
            }
            kinds.push((words, ways));
        }
    }
    kinds
}

const OTHER_KINDS: &[(&[usize], &[&str])] = &[
    (
        ENTRIES,
        &[
            "receive mapping 1, count",
            "receive mapping 1, entry 1",
            "transmit mapping 1, count",
            "transmit mapping 1, entry 1",
            "watch, entry 1",
            "behaviour on communication loss, 1",
            "filter length, 1",
            "digital event enable, 1",
            "analogue event enable, 1",
            "no such object",
            "no such sub-index, the last is 0",
            "no such sub-index, the last is 1",
            "no such sub-index, the last is 4",
            "no such sub-index, the last is 8",
            "no such sub-index, the last is 16",
            "no such sub-index, the last is 128",
        ],
    ),
    (
        READS,
        &[
            "device type, 1",
            "error register, 1",
            "number of entries, 1",
            "event sources: none",
            "event sources: channels 1",
            "event sources: channels 1 3",
        ],
    ),
    (
        WRITES,
        &[
            "read only",
            "value not allowed",
            "value too high",
            "value too low",
            "node watched by another entry",
            "count is not 0",
            "entry cannot be mapped",
            "more than 8 entries or 64 bits",
        ],
    ),
    (
        WRITES_OF_A_SIZE,
        &[
            "data too long, 1 byte wanted",
            "data too long, 2 bytes wanted",
            "data too short, 2 bytes wanted",
            "data too short, 4 bytes wanted",
        ],
    ),
    (PLAIN_WRITES, &["data too long, 4 bytes wanted", "data too short, 1 byte wanted"]),
    (&[0, 1], &["node stopped"]),
    (REQUESTS, &["node stopped, no reply", "request not 8 bytes", "reply buffer not 8 bytes"]),
    (
        OTHERS,
        &[
            "client's abort, no reply",
            "not an expedited transfer",
            "for another node, nothing done",
            "node number out of range",
            "no such command",
            "not 16 digital bytes",
            "not 16 analogue numbers",
            "event buffer not 16 bytes",
            "not 16 bytes and 8 numbers",
            "node not operational, nothing written",
            "frame shorter than its mapping, nothing written",
            "node not operational",
            "frame buffer not 8 bytes",
            "no entry watches this node",
            "watch expired",
            "no watch started",
            "none",
        ],
    ),
];

impl fmt::Display for WordTally {
    fn fmt(&self, f: &mut fmt::Formatter<'_>) -> fmt::Result {
        WAYS.iter().try_for_each(|way| write!(f, "{way:>9}"))?;
        writeln!(f, "  words")?;
        for kind in all_kinds() {
            self.counts(&kind).iter().try_for_each(|count| write!(f, "{count:9}"))?;
            writeln!(f, "  {}", kind_of(&kind.0))?;
        }
        Ok(())
    }
}
