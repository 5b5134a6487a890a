//! What is counted over random lists, so that a run tells what it has tried.

use std::fmt;

use crate::calls::{Answer, Call};
use crate::tally_faults::FaultTally;
use crate::tally_watch::WatchTally;

#[derive(Default)]
pub struct Tally {
    pub calls: u64,
    pub read_backs: u64,
    accepted: u64,
    events: u64,
    /// Entries of a mapping that were accepted.
    mapped: u64,
    /// Bytes that transmits wrote.
    sent: u64,
    requests: u64,
    /// Requests with an abort reply.
    aborted: u64,
    /// Requests that were accepted and got no reply.
    without_reply: u64,
    /// Entries of 1016 that were accepted.
    watched: u64,
    /// Refused because another entry has the node.
    taken: u64,
    heartbeats: u64,
    pub watch: WatchTally,
    pub faults: FaultTally,
}

impl Tally {
    /// A call as it was played, and what it answered.
    pub fn take(&mut self, call: &Call, answer: &Answer) {
        self.calls += 1;
        self.accepted += u64::from(answer.number == 0);
        self.events += events_of(call, answer);
        if let (0, Some(entry)) = (answer.number, written(call, answer)) {
            self.mapped += u64::from(is_mapping_entry(entry));
            self.watched += u64::from(entry.0 == 0x1016);
        }
        self.taken += u64::from(refusal(call, answer) == 0x0604_0043);
        match call {
            Call::Heartbeat { .. } => self.heartbeats += 1,
            Call::Transmit { .. } => self.sent += answer.count as u64,
            Call::Request { reply, .. } => {
                self.requests += 1;
                self.aborted += u64::from(answer.count == 8 && reply.part()[0] == 0x80);
                self.without_reply += u64::from((answer.number, answer.count) == (0, 0));
            }
            _ => {}
        }
    }
}

fn events_of(call: &Call, answer: &Answer) -> u64 {
    let mut count = u64::from(answer.events.count_ones());
    if let (Call::Sample { events, .. }, 0) = (call, answer.number) {
        count += events.part().iter().map(|byte| u64::from(byte.count_ones())).sum::<u64>();
    }
    count
}

/// The entry that an accepted call has written, if it writes one.
fn written(call: &Call, answer: &Answer) -> Option<(u16, u8)> {
    match call {
        Call::Write { index, sub, .. } => Some((*index, *sub)),
        Call::Request { reply, .. } if answer.count == 8 => match reply.part() {
            [0x60, low, high, sub, ..] => Some((u16::from_le_bytes([*low, *high]), *sub)),
            _ => None,
        },
        _ => None,
    }
}

/// The number of a call or the code of an abort reply, else 0.
fn refusal(call: &Call, answer: &Answer) -> u32 {
    match call {
        Call::Request { reply, .. } if answer.count == 8 => match reply.part() {
            [0x80, _, _, _, code @ ..] => code.try_into().map_or(0, u32::from_le_bytes),
            _ => 0,
        },
        _ => answer.number,
    }
}

fn is_mapping_entry(entry: (u16, u8)) -> bool {
    matches!(entry, (0x1600..=0x1603 | 0x1A00..=0x1A03, 1..))
}

impl fmt::Display for Tally {
    fn fmt(&self, f: &mut fmt::Formatter<'_>) -> fmt::Result {
        let Tally { accepted, events, mapped, sent, requests, aborted, without_reply, read_backs, .. } = self;
        let Tally { watched, taken, heartbeats, watch, faults, .. } = self;
        write!(f, "{accepted} accepted, {events} events, {mapped} entries mapped, {sent} bytes sent, ")?;
        write!(f, "{requests} requests ({aborted} aborted, {without_reply} without a reply), ")?;
        write!(f, "{watched} entries of 1016 written, {taken} refused for a node twice, ")?;
        write!(f, "{heartbeats} heartbeats, {watch}, {faults}, ")?;
        write!(f, "{read_backs} read-backs of every entry")
    }
}
