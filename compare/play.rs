//! Plays random lists of text on the notation's own front end over paper.rs and on the program
//! `play`, and compares what both answer, line by line.

// The other harness uses more of these.
#[allow(dead_code)]
mod calls;
#[allow(dead_code)]
mod lists;
mod lists_entries;
mod lists_faults;
mod lists_filters;
mod lists_mappings;
mod lists_objects;
mod lists_server;
mod lists_watch;
mod lists_watched;
mod notation;
mod notation_messages;
mod notation_server;
mod notation_watch;
mod paper;
mod paper_entries;
mod paper_machines;
mod paper_mappings;
mod paper_node;
mod paper_objects;
mod paper_server;
mod paper_watch;
mod play_expected;
mod play_model;
mod play_program;
mod tally_words;
mod texts;
mod texts_back;
mod texts_every;
mod texts_every_remark;
mod texts_expects;
mod texts_remarks;
mod texts_remarks_calls;
mod texts_remarks_values;
mod texts_spoil;
mod texts_words;
mod words;
mod words_entries;

use notation::lines_of;
use play_expected::Expected;
use play_model::{Player, Tally};
use play_program::{feed_of, output_of, Feed};
use tally_words::WordTally;
use texts_back::answered_back;
use texts_every::Named;

const MOST_SHOWN: u64 = 20;
const MOST_BYTES_SHOWN: usize = 300;

/// What is counted over all lists.
#[derive(Default)]
struct Report {
    tally: Tally,
    /// Of random lists alone.
    words: WordTally,
    lists: u64,
    lines: usize,
    differences: u64,
}

fn shown(bytes: &[u8]) -> String {
    let cut = &bytes[..bytes.len().min(MOST_BYTES_SHOWN)];
    let more = if cut.len() < bytes.len() { format!(" .. {} bytes", bytes.len()) } else { String::new() };
    format!("{}{more}", cut.escape_ascii())
}

/// How one answer line differs, with the line that got it.
fn how(text: &[u8], expected: &Expected, wrote: Option<&[u8]>) -> String {
    format!(
        "line {}: {}\n  expected {} {:?}\n  play     {}",
        expected.line,
        shown(text),
        shown(&expected.answer),
        expected.words,
        wrote.map_or("nothing more".into(), shown)
    )
}

/// The first difference of a list; the lines after it may have moved, so they say nothing.
fn difference(
    list: &[u8],
    output: &[u8],
    player: &mut Player,
    mut met: impl FnMut(&Expected),
) -> Option<String> {
    let Some(body) = output.strip_suffix(b"\n") else {
        return Some("the output does not end with a newline".into());
    };
    let mut wrote = body.split(|byte| *byte == b'\n');
    for text in lines_of(list) {
        let Some(expected) = player.take(text) else {
            continue;
        };
        match wrote.next() {
            // The words after a question mark are not compared, but a later line may expect them.
            Some(line) if expected.is_met_by(line) => player.learn(line),
            line => return Some(how(text, &expected, line)),
        }
        met(&expected);
    }
    let totals = player.tally.last_lines();
    let ends: Vec<&[u8]> = wrote.collect();
    if ends == totals.iter().map(String::as_bytes).collect::<Vec<_>>() {
        return None;
    }
    let ends: Vec<String> = ends.into_iter().map(shown).collect();
    Some(format!("its end\n  expected {totals:?}\n  play     {ends:?}"))
}

/// A list, with the name it is blamed by.
struct Played<'a> {
    name: &'a str,
    list: &'a [u8],
    feed: Feed,
    is_random: bool,
}

impl Report {
    fn differ(&mut self, played: &Played, what: &str) {
        self.differences += 1;
        if self.differences <= MOST_SHOWN {
            println!("differs: list {}, {what}", played.name);
            // The list is kept for whoever looks for the cause; without it the name is enough.
            let _ = std::fs::write(format!("target/compare/differs {}.list", played.name), played.list);
        }
    }

    /// What the program wrote, where it is as expected.
    fn play_list(&mut self, program: &str, played: &Played) -> Option<Vec<u8>> {
        self.lists += 1;
        self.lines += lines_of(played.list).count();
        let mut player = Player::new();
        let output = match output_of(program, played.list, played.feed) {
            Ok(output) => output,
            Err(what) => {
                self.differ(played, &format!("the program: {what}"));
                return None;
            }
        };
        let met = |expected: &Expected| {
            if played.is_random {
                self.words.take(expected);
            }
        };
        let difference = difference(played.list, &output, &mut player, met);
        self.tally.add(&player.tally);
        match difference {
            Some(what) => {
                self.differ(played, &what);
                None
            }
            None => Some(output),
        }
    }

    /// The random list of a seed, and at times a second one that expects what it answered.
    fn play_seed(&mut self, program: &str, seed: u64) {
        let (name, list) = (seed.to_string(), texts::list_of(seed));
        let feed = feed_of(seed, list.len());
        let output = self.play_list(program, &Played { name: &name, list: &list, feed, is_random: true });
        if let (0, Some(output)) = (seed % 8, output) {
            let (name, list) = (format!("{seed} answered back"), answered_back(&list, &output));
            let back = Played { name: &name, list: &list, feed: Feed::Whole, is_random: false };
            self.play_list(program, &back);
        }
    }

    /// How often each kind of words came, and whether every kind did.
    fn conclude_words(&self) -> bool {
        print!("{}", self.words);
        let complaints = self.words.complaints();
        for complaint in &complaints {
            println!("play-run: words {complaint}");
        }
        complaints.is_empty()
    }

    /// Whether no list differed, said in one line.
    fn conclude(&self, seeds: &str) -> bool {
        let Tally { passed_over, calls, refused, not_understood, as_expected, not_as_expected, .. } =
            self.tally;
        print!("play-run: {} lines in {} lists ({seeds}), ", self.lines, self.lists);
        print!(
            "{calls} calls, {refused} refused, {not_understood} not understood, {passed_over} passed over, "
        );
        print!("{as_expected} as expected, {not_as_expected} not: ");
        match self.differences {
            0 => println!("none differs"),
            many => println!("{many} lists differ"),
        }
        self.differences == 0
    }
}

fn main() {
    let usage = "usage: play-compare PROGRAM THOUSANDS [SEED]";
    let mut arguments = std::env::args().skip(1);
    let program = arguments.next().expect(usage);
    let thousands: usize = arguments.next().and_then(|n| n.parse().ok()).expect(usage);
    let first: u64 = arguments.next().map_or(1, |seed| seed.parse().expect("a seed is a number"));
    let mut report = Report::default();
    let mut seed = first;
    while report.lines < thousands * 1000 {
        report.play_seed(&program, seed);
        seed += 1;
    }
    let (name, list) = (format!("{first} of remarks"), texts::list_of_remarks(first));
    report.play_list(&program, &Played { name: &name, list: &list, feed: Feed::Whole, is_random: true });
    let everything = texts_every::lists_of_everything();
    for Named { name, list } in &everything {
        // A byte order mark may come in parts.
        let feed = if list.len() < 64 { Feed::Pieces { about: 1, seed: first } } else { Feed::Whole };
        report.play_list(&program, &Played { name, list, feed, is_random: false });
    }
    let seeds = format!("seeds {first} to {} and {} of everything", seed - 1, everything.len());
    let every_kind = report.conclude_words();
    std::process::exit(i32::from(!report.conclude(&seeds) || !every_kind));
}
