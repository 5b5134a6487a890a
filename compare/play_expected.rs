//! One answer line as the notation and the papers expect it, with the words that follow it.

use crate::notation::Asked;
use crate::notation_messages::Complaint;

/// What stands after the answer.
#[derive(Debug, PartialEq)]
pub enum Words {
    /// `? line N: ` is followed by what was expected.
    WhatWasExpected(Complaint),
    InParentheses(String),
    None,
}

pub struct Expected {
    /// Counted from 1.
    pub line: u64,
    /// The call that is answered, as it was played; none where the line is no call.
    pub asked: Option<Asked>,
    pub answer: Vec<u8>,
    pub words: Words,
}

impl Expected {
    /// The answer line, as far as it is fixed.
    pub fn text(&self) -> Vec<u8> {
        match &self.words {
            Words::WhatWasExpected(Some(complaint)) => [&self.answer, complaint.as_bytes()].concat(),
            Words::InParentheses(words) => [&self.answer, b" (".as_slice(), words.as_bytes(), b")"].concat(),
            _ => self.answer.clone(),
        }
    }

    /// Whether a program wrote this answer line.
    pub fn is_met_by(&self, wrote: &[u8]) -> bool {
        if self.words != Words::WhatWasExpected(None) {
            return wrote == self.text();
        }
        // Some words, which nothing fixes.
        let rest = wrote.strip_prefix(self.answer.as_slice()).unwrap_or_default();
        rest.iter().all(|byte| (b' '..=b'~').contains(byte)) && !rest.trim_ascii().is_empty()
    }
}
