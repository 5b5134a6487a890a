//! The program `play` as a process: a list on its standard input, its whole output back.

use std::fs::File;
use std::io::{Read, Write};
use std::process::{Child, Command, Stdio};
use std::time::Duration;

use crate::lists::Random;

/// How a list reaches the program's standard input.
#[derive(Clone, Copy, Debug, PartialEq)]
pub enum Feed {
    Whole,
    /// Written piece by piece with pauses, so that the program's blocks begin at odd places.
    Pieces {
        about: usize,
        seed: u64,
    },
    File,
}

/// The feed of a seed; pieces are few enough that their pauses cost little.
pub fn feed_of(seed: u64, length: usize) -> Feed {
    let mut random = Random::new(seed ^ 0x0066_6565_6473);
    match random.below(10) {
        0..7 => Feed::Whole,
        7..9 => {
            let about = random.pick(&[1, 7, 61, 509, 1024, 4096]).max(length / 400);
            Feed::Pieces { about, seed: random.next() }
        }
        _ => Feed::File,
    }
}

/// What the program wrote, or why it did not end as it should.
pub fn output_of(program: &str, list: &[u8], feed: Feed) -> Result<Vec<u8>, String> {
    let input = match feed {
        Feed::File => Stdio::from(file_with(list).map_err(|error| format!("the list's file: {error}"))?),
        _ => Stdio::piped(),
    };
    let mut child = Command::new(program)
        .stdin(input)
        .stdout(Stdio::piped())
        .stderr(Stdio::piped())
        .spawn()
        .map_err(|error| format!("{program}: {error}"))?;
    let output = fed_and_read(&mut child, list, feed)?;
    let mut complaint = String::new();
    if let Some(mut stderr) = child.stderr.take() {
        stderr.read_to_string(&mut complaint).map_err(|error| error.to_string())?;
    }
    let status = child.wait().map_err(|error| error.to_string())?;
    if !status.success() || !complaint.is_empty() {
        return Err(format!("{status}, standard error {complaint:?}"));
    }
    Ok(output)
}

fn file_with(list: &[u8]) -> std::io::Result<File> {
    let path = format!("target/compare/list-of-{}", std::process::id());
    std::fs::write(&path, list)?;
    let file = File::open(&path)?;
    // The open file stays readable, and no file is left behind.
    std::fs::remove_file(&path)?;
    Ok(file)
}

/// Writes and reads at once, for the program writes answers before it has read the whole list.
fn fed_and_read(child: &mut Child, list: &[u8], feed: Feed) -> Result<Vec<u8>, String> {
    let stdin = child.stdin.take();
    let mut stdout = child.stdout.take().ok_or("no standard output")?;
    std::thread::scope(|scope| {
        let writer = scope.spawn(move || match (stdin, feed) {
            (Some(mut stdin), Feed::Pieces { about, seed }) => write_in_pieces(&mut stdin, list, about, seed),
            (Some(mut stdin), _) => stdin.write_all(list),
            (None, _) => Ok(()),
        });
        let mut output = Vec::new();
        stdout.read_to_end(&mut output).map_err(|error| error.to_string())?;
        let written = writer.join().map_err(|_| "the writer stopped")?;
        written.map_err(|error| format!("the list was not read whole: {error}"))?;
        Ok(output)
    })
}

fn write_in_pieces(to: &mut impl Write, list: &[u8], about: usize, seed: u64) -> std::io::Result<()> {
    let mut random = Random::new(seed);
    let mut rest = list;
    while !rest.is_empty() {
        let (piece, after) = rest.split_at(rest.len().min(1 + random.below(2 * about)));
        to.write_all(piece)?;
        std::thread::sleep(Duration::from_micros(20));
        rest = after;
    }
    Ok(())
}
