//! A second list out of a first one and what the program answered to it.

use crate::notation::lines_of;
use crate::play_expected::Words;
use crate::play_model::Player;

/// The list with each answer behind its line as what is expected, so that the words that the notation
/// leaves open are expected as the program writes them.
pub fn answered_back(list: &[u8], output: &[u8]) -> Vec<u8> {
    let mut player = Player::new();
    let mut wrote = output.split(|byte| *byte == b'\n');
    let mut back: Vec<Vec<u8>> = Vec::new();
    for text in lines_of(list) {
        back.push(text.to_vec());
        let Some(expected) = player.take(text) else {
            continue;
        };
        let answer = wrote.next().unwrap_or_default();
        player.learn(answer);
        match expected.words {
            _ if expected.asked.is_some() => back.push([b"> ", answer].concat()),
            Words::WhatWasExpected(_) => {
                // The line has another number in the second list.
                let start = format!("> ? line {}: ", back.len()).into_bytes();
                back.push([&start, &answer[expected.answer.len()..]].concat());
            }
            // The answer to an expecting line is none that can be expected.
            _ => {}
        }
    }
    back.join(&b'\n')
}
