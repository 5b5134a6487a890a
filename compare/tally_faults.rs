//! How random lists met Item 6: the ways in which fault began, what the lines carried then, what moved while it
//! lasted, and the ways in which it ended. Each counts once a drive shows it, before fault begins or ends again.

use std::fmt;

use crate::calls::{Answer, Call, Cause};
use crate::paper::Device;
use crate::paper_machines::DigitalOutput;
use crate::paper_node::{Node, State};

/// Internal failure, stop, the loss with each 1029:1, expiry with each.
const BEGINS: usize = 8;
/// Clear of internal failure and of the loss, start, pre-operational, reset node, reset communication.
const ENDS: usize = 6;
/// Of one bit in each of the four rows.
const COMBINATIONS: usize = 16;
/// Counted from 0, where the words of a row begin and end.
const OUTER_LINES: [usize; 4] = [0, 63, 64, 127];

/// The node and the output lines at one moment.
#[derive(Clone, Copy)]
pub struct Outputs {
    node: Node,
    lines: [DigitalOutput; 128],
}

/// Rows of output, polarity, error mode and error value.
type Rows = [u128; 4];

impl Outputs {
    pub fn of(paper: &Device) -> Outputs {
        Outputs { node: paper.node, lines: paper.digital_outputs }
    }

    fn rows(&self) -> Rows {
        let mut rows = [0; 4];
        for m in self.lines.iter().rev() {
            for (row, bit) in rows.iter_mut().zip([m.kept, m.polarity, m.error_mode, m.error_value]) {
                *row = *row << 1 | u128::from(bit);
            }
        }
        rows
    }

    fn is_operational(&self) -> bool {
        self.node.state == State::Operational
    }

    /// A stop is one too.
    fn causes(&self) -> usize {
        let Node { internal_failure, communication_loss, state, .. } = self.node;
        usize::from(internal_failure) + usize::from(communication_loss) + usize::from(state == State::Stopped)
    }
}

/// The lines on which each row has its bit of the combination.
fn lines_with(combination: usize, rows: &Rows) -> u128 {
    let alike = |n: usize| if combination >> n & 1 == 1 { rows[n] } else { !rows[n] };
    (0..4).fold(u128::MAX, |lines, n| lines & alike(n))
}

/// What a drive may show.
enum Event {
    Begun { way: usize, operational: bool, rows: Rows },
    SecondCause,
    Moved { row: usize, by: usize },
    Ended { way: usize },
}

#[derive(Default)]
pub struct FaultTally {
    /// Since fault last began or ended, not driven yet.
    unseen: Vec<Event>,
    begun: [u64; BEGINS],
    /// With a combination on some line: of a node that was not operational, of one that was.
    begun_with: [[[u64; COMBINATIONS]; BEGINS]; 2],
    /// With a combination on that very line.
    begun_on: [[u64; COMBINATIONS]; OUTER_LINES.len()],
    second_causes: u64,
    /// By row; by a plain write, a request, a frame.
    moved: [[u64; 3]; 4],
    ended: [u64; ENDS],
}

fn way_of_begin(call: &Call, before: &Node) -> usize {
    match call {
        Call::Raise(Cause::InternalFailure) => 0,
        Call::Command { .. } => 1,
        Call::Raise(Cause::CommunicationLoss) => 2 + usize::from(before.error_behaviour),
        _ => 5 + usize::from(before.error_behaviour),
    }
}

fn way_of_end(call: &Call) -> usize {
    match call {
        Call::Clear(Cause::InternalFailure) => 0,
        Call::Clear(Cause::CommunicationLoss) => 1,
        Call::Command { code: 1, .. } => 2,
        Call::Command { code: 128, .. } => 3,
        Call::Command { code: 129, .. } => 4,
        _ => 5,
    }
}

impl FaultTally {
    pub fn start_a_list(&mut self) {
        self.unseen.clear();
    }

    /// A call as it was played, what it answered, and the outputs before and after it.
    pub fn take(&mut self, call: &Call, answer: &Answer, before: &Outputs, after: &Outputs) {
        match (before.node.in_fault(), after.node.in_fault()) {
            (false, true) => {
                let (way, operational) = (way_of_begin(call, &before.node), before.is_operational());
                self.unseen = vec![Event::Begun { way, operational, rows: before.rows() }];
            }
            (true, false) => self.unseen = vec![Event::Ended { way: way_of_end(call) }],
            (true, true) => self.take_during(call, before, after),
            (false, false) => {}
        }
        if let (Call::Drive { .. }, 0) = (call, answer.number) {
            std::mem::take(&mut self.unseen).iter().for_each(|event| self.count(event));
        }
    }

    fn take_during(&mut self, call: &Call, before: &Outputs, after: &Outputs) {
        if after.causes() > before.causes() {
            self.unseen.push(Event::SecondCause);
        }
        let by = match call {
            Call::Write { .. } => 0,
            Call::Request { .. } => 1,
            Call::Receive { .. } => 2,
            _ => return,
        };
        let rows = before.rows().into_iter().zip(after.rows());
        let moved = rows.enumerate().filter(|(_, (before, after))| before != after);
        self.unseen.extend(moved.map(|(row, _)| Event::Moved { row, by }));
    }

    fn count(&mut self, event: &Event) {
        match event {
            Event::Begun { way, operational, rows } => self.count_begin(*way, *operational, rows),
            Event::SecondCause => self.second_causes += 1,
            Event::Moved { row, by } => self.moved[*row][*by] += 1,
            Event::Ended { way } => self.ended[*way] += 1,
        }
    }

    fn count_begin(&mut self, way: usize, operational: bool, rows: &Rows) {
        self.begun[way] += 1;
        for combination in 0..COMBINATIONS {
            let lines = lines_with(combination, rows);
            self.begun_with[usize::from(operational)][way][combination] += u64::from(lines != 0);
            for (begun, line) in self.begun_on.iter_mut().zip(OUTER_LINES) {
                begun[combination] += (lines >> line & 1) as u64;
            }
        }
    }
}

fn fewest<'a>(counts: impl IntoIterator<Item = &'a u64>) -> u64 {
    counts.into_iter().copied().min().unwrap_or(0)
}

impl fmt::Display for FaultTally {
    fn fmt(&self, f: &mut fmt::Formatter<'_>) -> fmt::Result {
        let FaultTally { begun, begun_with, begun_on, second_causes, moved, ended, .. } = self;
        let (losses, expiries) = (&begun[2..5], &begun[5..]);
        let [outputs, polarities, modes, values] = moved;
        let some_line = fewest(begun_with.iter().flatten().flatten());
        let outer_lines = fewest(begun_on.iter().flatten());
        write!(f, "faults driven (begun by internal failure {}, stop {}, the loss ", begun[0], begun[1])?;
        write!(f, "with 1029:1 = 0, 1, 2 {losses:?}, expiry with each {expiries:?}; each way, ")?;
        write!(f, "operational and not, with each output, polarity, error mode and error value together ")?;
        write!(f, "on some line {some_line} or more, on lines 1, 64, 65, 128 {outer_lines} or more each; ")?;
        write!(f, "{second_causes} second causes; by writes, requests, frames outputs moved {outputs:?}, ")?;
        write!(f, "polarities {polarities:?}, error modes {modes:?}, error values {values:?}; ")?;
        write!(f, "ended by clear of internal failure, of the loss, start, pre-operational, reset node, ")?;
        write!(f, "reset communication {ended:?})")
    }
}
