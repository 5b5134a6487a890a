//! The notation and the papers as a player of a list: it takes line after line, says which answer
//! line each one gets, and counts.

use crate::calls::Machine;
use crate::notation::{answer_words, understand, Asked, Line};
use crate::paper::Device;
use crate::play_expected::{Expected, Words};
use crate::words::words_after;

#[derive(Clone, Copy, Default)]
pub struct Tally {
    pub lines: u64,
    pub passed_over: u64,
    pub calls: u64,
    pub refused: u64,
    pub not_understood: u64,
    pub as_expected: u64,
    pub not_as_expected: u64,
}

impl Tally {
    pub fn add(&mut self, other: &Tally) {
        self.lines += other.lines;
        self.passed_over += other.passed_over;
        self.calls += other.calls;
        self.refused += other.refused;
        self.not_understood += other.not_understood;
        self.as_expected += other.as_expected;
        self.not_as_expected += other.not_as_expected;
    }

    /// What stands after the answers.
    pub fn last_lines(&self) -> Vec<String> {
        let Tally { calls, refused, not_understood, as_expected, not_as_expected, .. } = self;
        let mut lines =
            vec![String::new(), format!("{calls} calls, {refused} refused, {not_understood} not understood")];
        if as_expected + not_as_expected > 0 {
            lines.push(format!("{as_expected} as expected, {not_as_expected} not"));
        }
        lines
    }
}

/// The answer line that an expecting line is compared with.
struct Last {
    text: Vec<u8>,
    /// False where the notation leaves open which words follow these.
    whole: bool,
}

impl Last {
    fn is(&self, expected: &[&[u8]]) -> bool {
        let words = answer_words(&self.text);
        let more = expected.len() > words.len();
        // Something follows the colon of a line not understood, so its first words alone are too few.
        expected.starts_with(&words) && more != self.whole
    }
}

pub struct Player {
    pub device: Device,
    last: Option<Last>,
    pub tally: Tally,
}

impl Player {
    pub fn new() -> Player {
        // A list whose first call is no create plays on `create 1`.
        Player { device: Device::create(1).1, last: None, tally: Tally::default() }
    }

    /// The answer line of the list's next line; none where it gets none.
    pub fn take(&mut self, text: &[u8]) -> Option<Expected> {
        self.tally.lines += 1;
        match understand(text) {
            Line::Nothing => {
                self.tally.passed_over += 1;
                None
            }
            Line::Expects(words) => self.judge(&words),
            Line::NotUnderstood(complaint) => {
                let asked = self.not_understood("", Words::WhatWasExpected(complaint));
                self.last = Some(Last { text: asked.text(), whole: complaint.is_some() });
                Some(asked)
            }
            Line::Call(asked) => Some(self.play(asked)),
        }
    }

    /// The words that the notation leaves open, as a program chose them.
    pub fn learn(&mut self, wrote: &[u8]) {
        if let Some(last @ Last { whole: false, .. }) = &mut self.last {
            *last = Last { text: wrote.to_vec(), whole: true };
        }
    }

    pub fn last_answer(&self) -> Option<&[u8]> {
        self.last.as_ref().map(|last| last.text.as_slice())
    }

    fn play(&mut self, mut asked: Asked) -> Expected {
        let before = self.device.clone();
        let answer = asked.play(&mut self.device);
        self.tally.calls += 1;
        self.tally.refused += u64::from(answer.number != 0);
        let text = asked.answer_line(&answer).into_bytes();
        self.last = Some(Last { text: text.clone(), whole: true });
        let words = words_after(&before, &asked, &answer).map_or(Words::None, Words::InParentheses);
        Expected { line: self.tally.lines, asked: Some(asked), answer: text, words }
    }

    fn not_understood(&mut self, what: &str, words: Words) -> Expected {
        self.tally.not_understood += 1;
        let line = self.tally.lines;
        Expected { line, asked: None, answer: format!("? line {line}: {what}").into_bytes(), words }
    }

    /// An expecting line; whatever it gets, the next one is compared with the same answer.
    fn judge(&mut self, words: &[&[u8]]) -> Option<Expected> {
        let Some(last) = &self.last else {
            return Some(self.not_understood("expected an answer before this line", Words::None));
        };
        if last.is(words) {
            self.tally.as_expected += 1;
            return None;
        }
        self.tally.not_as_expected += 1;
        let line = self.tally.lines;
        let start = format!("! line {line}: expected").into_bytes();
        let answer = [&[start.as_slice()], words].concat().join(&b' ');
        Some(Expected { line, asked: None, answer, words: Words::None })
    }
}
