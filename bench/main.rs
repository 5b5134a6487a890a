//! The same lists timed on both implementations and on the static library in one run, and their
//! instructions counted by callgrind, which runs this program again for each cell of the table.

#[path = "../compare/calls.rs"]
mod calls;
#[path = "../compare/fast.rs"]
mod fast;
#[path = "../compare/fast_entries.rs"]
mod fast_entries;
#[path = "../compare/fast_kinds.rs"]
mod fast_kinds;
#[path = "../compare/fast_mappings.rs"]
mod fast_mappings;
#[path = "../compare/fast_samples.rs"]
mod fast_samples;
#[path = "../compare/fast_server.rs"]
mod fast_server;
#[path = "../compare/fast_watch.rs"]
mod fast_watch;
#[path = "../compare/library.rs"]
mod library;
#[allow(dead_code)]
#[path = "../compare/lists.rs"]
mod lists;
#[path = "../compare/lists_entries.rs"]
mod lists_entries;
#[allow(dead_code)]
#[path = "../compare/lists_faults.rs"]
mod lists_faults;
#[allow(dead_code)]
#[path = "../compare/lists_filters.rs"]
mod lists_filters;
#[allow(dead_code)]
#[path = "../compare/lists_mappings.rs"]
mod lists_mappings;
#[path = "../compare/lists_objects.rs"]
mod lists_objects;
#[allow(dead_code)]
#[path = "../compare/lists_server.rs"]
mod lists_server;
#[allow(dead_code)]
#[path = "../compare/lists_watch.rs"]
mod lists_watch;
#[allow(dead_code)]
#[path = "../compare/lists_watched.rs"]
mod lists_watched;
#[path = "../compare/paper.rs"]
mod paper;
#[path = "../compare/paper_entries.rs"]
mod paper_entries;
#[path = "../compare/paper_machines.rs"]
mod paper_machines;
#[path = "../compare/paper_mappings.rs"]
mod paper_mappings;
#[path = "../compare/paper_node.rs"]
mod paper_node;
#[path = "../compare/paper_objects.rs"]
mod paper_objects;
#[path = "../compare/paper_server.rs"]
mod paper_server;
#[allow(dead_code)]
#[path = "../compare/paper_watch.rs"]
mod paper_watch;
mod rows;

use calls::{Answer, Call, Machine};
use lists::Random;
use rows::{Row, ROWS};
use std::hint::black_box;
use std::process::Command;
use std::time::Instant;

const NAMES: [&str; 3] = ["paper", "fast", "library"];
const ROUNDS: usize = 15;
const REPEATS: usize = 20;

/// Callgrind counts what happens in here, the harness's own part included and the list's loop not.
#[inline(never)]
fn one_call<M: Machine>(device: &mut M, call: &mut Call) -> Answer {
    call.play(device)
}

/// As above, for a create.
#[inline(never)]
fn one_call_create<M: Machine>(device: &mut M, number: u8) -> u32 {
    let (answer, fresh) = M::create(number);
    *device = fresh;
    answer
}

fn prepared<M: Machine>(row: &Row) -> M {
    let (_, mut device) = M::create(1);
    for mut call in rows::set_up(row.filtered) {
        call.play(&mut device);
    }
    device
}

fn play<M: Machine>(device: &mut M, list: &mut [Call]) {
    if list.is_empty() {
        for number in 0..rows::LENGTH {
            black_box(one_call_create(device, number as u8));
        }
    }
    for call in list {
        black_box(one_call(device, call));
    }
}

/// Nanoseconds for each call, over some repeats of the list.
fn time<M: Machine>(row: &Row, list: &[Call]) -> f64 {
    let mut device = prepared::<M>(row);
    let mut own = list.to_vec();
    let start = Instant::now();
    for _ in 0..REPEATS {
        play(black_box(&mut device), black_box(&mut own));
    }
    start.elapsed().as_nanos() as f64 / (REPEATS as f64 * length_of(list))
}

/// The least of some rounds, the three implementations by turns.
fn times(row: &Row, list: &[Call]) -> [f64; 3] {
    let mut least = [f64::MAX; 3];
    for _ in 0..ROUNDS {
        let round = [
            time::<paper::Device>(row, list),
            time::<fast::Device>(row, list),
            time::<library::Device>(row, list),
        ];
        for n in 0..3 {
            least[n] = least[n].min(round[n]);
        }
    }
    least
}

/// Instructions for each call, as callgrind counts them in a run of its own.
fn instructions(row: &Row, list: &[Call]) -> Option<[f64; 3]> {
    let mut counts = [0.0; 3];
    for n in 0..3 {
        let run = Command::new("valgrind")
            .args(["--tool=callgrind", "--callgrind-out-file=/dev/null", "--toggle-collect=*one_call*"])
            .arg(std::env::current_exe().ok()?)
            .args([NAMES[n], row.name])
            .output()
            .ok()?;
        let report = String::from_utf8_lossy(&run.stderr).into_owned();
        let collected = report.lines().find_map(|line| line.split("Collected :").nth(1))?;
        counts[n] = collected.trim().parse::<f64>().ok()? / length_of(list);
    }
    Some(counts)
}

/// How many calls playing a list makes.
fn length_of(list: &[Call]) -> f64 {
    let calls = if list.is_empty() { rows::LENGTH } else { list.len() };
    calls as f64
}

fn list_of(row: &Row) -> Vec<Call> {
    (row.calls)(&mut Random::new(1))
}

/// What callgrind runs: one row's list on one implementation.
fn play_alone(name: &str, row: &str) {
    let row = ROWS.iter().find(|known| known.name == row).expect("a row of the table");
    let mut list = list_of(row);
    match name {
        "paper" => play(&mut prepared::<paper::Device>(row), &mut list),
        "fast" => play(&mut prepared::<fast::Device>(row), &mut list),
        _ => play(&mut prepared::<library::Device>(row), &mut list),
    }
}

fn print_cells(cells: Option<[f64; 3]>) {
    match cells {
        Some([paper, fast, library]) => {
            print!(" {paper:8.0} {fast:8.0} {library:8.0} {:8.2} {:8.2} |", library / paper, library / fast);
        }
        None => print!(" {:>8} {:>8} {:>8} {:>8} {:>8} |", "-", "-", "-", "-", "-"),
    }
}

/// The processor's name, where the system tells it.
fn machine() -> String {
    let told = std::fs::read_to_string("/proc/cpuinfo").unwrap_or_default();
    let name =
        told.lines().find(|line| line.starts_with("model name")).and_then(|line| line.split(": ").nth(1));
    name.unwrap_or("a processor without a name").to_string()
}

fn main() {
    let arguments: Vec<String> = std::env::args().skip(1).collect();
    if let [name, row] = arguments.as_slice() {
        return play_alone(name, row);
    }
    println!(
        "On {}; paper.rs and fast.rs by rustc -O. Only create hands a device back by value.",
        machine()
    );
    let heads = ["paper", "fast", "library", "/paper", "/fast"];
    let head: String = heads.iter().map(|head| format!(" {head:>8}")).collect();
    println!("{:23}|{:^45} |{:^45} |", "", "instructions a call", "nanoseconds a call");
    println!("{:23}|{head} |{head} |", "");
    for row in &ROWS {
        let list = list_of(row);
        print!("{:23}|", row.name);
        print_cells(instructions(row, &list));
        print_cells(Some(times(row, &list)));
        println!();
    }
}
