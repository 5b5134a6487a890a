//! Plays a list from standard input on the notation's own front end over paper.rs, and writes what
//! `play` writes; after the colon of a line not understood only what is fixed.

// The comparisons use more of these.
#[allow(dead_code)]
mod calls;
mod notation;
mod notation_messages;
mod notation_server;
mod notation_watch;
mod paper;
mod paper_entries;
mod paper_machines;
mod paper_mappings;
mod paper_node;
mod paper_objects;
mod paper_server;
mod paper_watch;
#[allow(dead_code)]
mod play_expected;
#[allow(dead_code)]
mod play_model;
mod words;
mod words_entries;

use std::io::{Read, Write};

use notation::lines_of;
use play_model::Player;

fn main() -> std::io::Result<()> {
    let mut list = Vec::new();
    std::io::stdin().read_to_end(&mut list)?;
    let mut player = Player::new();
    let mut output = Vec::new();
    for expected in lines_of(&list).filter_map(|text| player.take(text)) {
        let text = expected.text();
        // Only the start of a line not understood ends in a space.
        output.extend(text.strip_suffix(b" ").unwrap_or(&text));
        output.push(b'\n');
    }
    for line in player.tally.last_lines() {
        output.extend(line.as_bytes());
        output.push(b'\n');
    }
    std::io::stdout().write_all(&output)
}
