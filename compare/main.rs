//! Plays random lists on both implementations and on the static library, and compares every answer, every
//! lent buffer, and from time to time every entry, every driven output, about what each filter has counted and
//! what each watch has added up.

mod calls;
mod fast;
mod fast_entries;
mod fast_kinds;
mod fast_mappings;
mod fast_samples;
mod fast_server;
mod fast_watch;
mod library;
mod lists;
mod lists_entries;
mod lists_faults;
mod lists_filters;
mod lists_mappings;
mod lists_objects;
mod lists_server;
mod lists_watch;
mod lists_watched;
mod paper;
mod paper_entries;
mod paper_machines;
mod paper_mappings;
mod paper_node;
mod paper_objects;
mod paper_server;
mod paper_watch;
mod read_back;
mod sweep_requests;
mod sweep_watch;
mod tally;
mod tally_faults;
mod tally_watch;

use calls::{Answer, Call, Lent, Machine};
use lists::{Random, Source};
use lists_objects::Object;
use read_back::{read_back, Told};
use sweep_requests::sweep_requests;
use sweep_watch::sweep_watch;
use tally::Tally;
use tally_faults::Outputs;
use tally_watch::Met;

const CALLS_OF_A_LIST: u64 = 1000;

/// An implementation beside the paper's, with the name it is blamed by.
#[derive(Clone)]
struct Beside<M> {
    name: &'static str,
    device: M,
}

impl<M: Machine> Beside<M> {
    fn create(name: &'static str, number: u8, paper: u32) -> Beside<M> {
        let (answer, device) = M::create(number);
        assert_eq!(answer, paper, "{name}: create {number}");
        Beside { name, device }
    }

    fn compare(&mut self, call: &Call, paper: &(Call, Answer), place: (u64, u64)) {
        let mut own = *call;
        let answer = own.play(&mut self.device);
        if (own, answer) != *paper {
            println!(
                "{} differs, seed {}, call {}\n call {call:?}\n paper {paper:?}\n {} {:?}",
                self.name,
                place.0,
                place.1,
                self.name,
                (own, answer)
            );
            std::process::exit(1);
        }
    }

    fn compare_all(&self, paper: &Told, objects: &[Object], place: (u64, u64)) {
        if read_back(&self.device, objects) != *paper {
            println!("{} differs in a read-back, seed {}, after call {}", self.name, place.0, place.1);
            std::process::exit(1);
        }
    }
}

/// The paper's implementation and those beside it.
#[derive(Clone)]
struct All {
    paper: paper::Device,
    fast: Beside<fast::Device>,
    library: Beside<library::Device>,
}

impl All {
    fn create(number: u8) -> All {
        let (answer, paper) = paper::Device::create(number);
        let fast = Beside::create("fast", number, answer);
        let library = Beside::create("library", number, answer);
        All { paper, fast, library }
    }

    /// What the paper's implementation answers, and the others too.
    fn play(&mut self, call: Call, place: (u64, u64)) -> (Call, Answer) {
        let mut played = call;
        let answer = played.play(&mut self.paper);
        self.fast.compare(&call, &(played, answer), place);
        self.library.compare(&call, &(played, answer), place);
        (played, answer)
    }

    /// What an elapsed call would meet.
    fn met(&self) -> Met {
        let node = &self.paper.node;
        let left = self.paper.watches.map(|watch| watch.left());
        Met { left, loss: node.communication_loss, error_behaviour: node.error_behaviour }
    }

    fn read_back(&self, objects: &[Object], place: (u64, u64)) {
        let all = read_back(&self.paper, objects);
        self.fast.compare_all(&all, objects, place);
        self.library.compare_all(&all, objects, place);
    }
}

fn play_list(seed: u64, calls: u64, objects: &[Object], tally: &mut Tally) {
    let mut source = Source::new(seed);
    let mut pauses = Random::new(!seed);
    let mut devices = All::create(source.number());
    tally.faults.start_a_list();
    for at in 0..calls {
        let call = source.call();
        let before = Outputs::of(&devices.paper);
        if let Call::Elapsed { milliseconds } = call {
            tally.watch.take(milliseconds, &devices.met());
        }
        let (played, answer) = devices.play(call, (seed, at));
        tally.take(&played, &answer);
        tally.faults.take(&played, &answer, &before, &Outputs::of(&devices.paper));
        if at + 1 == calls || pauses.below(400) == 0 {
            devices.read_back(objects, (seed, at));
            tally.read_backs += 1;
        }
    }
}

/// Reads and writes every index there is at a few sub-indices, and a listed one at each.
fn sweep(objects: &[Object]) -> u64 {
    let mut devices = All::create(1);
    let mut calls = 0;
    for index in 0..=u16::MAX {
        let listed = objects.iter().any(|object| object.index == index);
        for sub in (0..=u8::MAX).filter(|sub| listed || matches!(sub, 0 | 1 | 9 | 255)) {
            let write = |length| Call::Write { index, sub, data: Lent::new([1; 24], length) };
            for call in
                [Call::Read { index, sub }, write(0), write(1), write(2), write(3), write(4), write(5)]
            {
                devices.play(call, (0, calls));
                calls += 1;
            }
        }
    }
    calls
}

/// Writes every index there is as an entry of one mapping of each direction, a listed one with every
/// sub-index and length up to 64 bits.
fn sweep_entries(objects: &[Object]) -> u64 {
    let mut devices = All::create(1);
    let mut calls = 0;
    for index in 0..=u16::MAX {
        let listed = objects.iter().any(|object| object.index == index);
        for sub in (0..=u8::MAX).filter(|sub| listed || *sub < 2) {
            for bits in (0..=64).filter(|bits| listed || matches!(bits, 0 | 8 | 16 | 32)) {
                let [low, high] = index.to_le_bytes();
                let mut bytes = [0; 24];
                bytes[..4].copy_from_slice(&[bits, sub, low, high]);
                for mapping in [0x1601, 0x1A02] {
                    let data = Lent::new(bytes, 4);
                    devices.play(Call::Write { index: mapping, sub: 3, data }, (0, calls));
                    calls += 1;
                }
            }
        }
    }
    calls
}

fn sample_of(lines: u128) -> Call {
    let mut digital = [0; 24];
    digital[..16].copy_from_slice(&lines.to_le_bytes());
    let events = Lent::new([0xA5; 24], 16);
    Call::Sample { digital: Lent::new(digital, 16), analogue: Lent::new([0; 24], 16), events }
}

/// Line 1 has differed so often under a length of 255, each line after it once more than the one before.
fn counting(first: usize) -> All {
    let mut devices = All::create(1);
    devices.play(Call::Command { code: 1, node: 1 }, (0, 0));
    for sub in 1..=4 {
        devices.play(Call::Write { index: 0x6123, sub, data: Lent::new([0xFF; 24], 4) }, (0, 0));
    }
    devices.play(Call::Write { index: 0x2003, sub: 0, data: Lent::new([0xFF; 24], 1) }, (0, 0));
    for later in (1..128).rev() {
        devices.play(sample_of(u128::MAX << later), (0, 0));
    }
    for _ in 0..first {
        devices.play(sample_of(u128::MAX), (0, 0));
    }
    devices
}

/// Writes every length over every count, and lets the lines differ until each has settled, also after they
/// have agreed once.
fn sweep_lengths() -> u64 {
    let mut calls = 0;
    for devices in [counting(0), counting(127)] {
        for length in 0..=u8::MAX {
            let write = Call::Write { index: 0x2003, sub: 0, data: Lent::new([length; 24], 1) };
            // Zero is refused and leaves 255.
            let needed = usize::from(length.wrapping_sub(1)) + 1;
            for agreeing in 0..2 {
                let mut devices = devices.clone();
                let agree = std::iter::repeat_n(sample_of(0), agreeing);
                let differ = std::iter::repeat_n(sample_of(u128::MAX), needed + 1);
                for call in [write].into_iter().chain(agree).chain(differ) {
                    devices.play(call, (0, calls));
                    calls += 1;
                }
            }
        }
    }
    calls
}

fn main() {
    let mut arguments = std::env::args().skip(1);
    let millions: u64 =
        arguments.next().and_then(|n| n.parse().ok()).expect("usage: compare MILLIONS [SEED]");
    let first: u64 = arguments.next().map_or(1, |seed| seed.parse().expect("a seed is a number"));
    let objects = lists_objects::objects();
    let mut tally = Tally::default();
    let lists = millions * 1_000_000 / CALLS_OF_A_LIST;
    for seed in first..first + lists {
        play_list(seed, CALLS_OF_A_LIST, &objects, &mut tally);
    }
    let (swept, entries, lengths) = (sweep(&objects), sweep_entries(&objects), sweep_lengths());
    let requests = sweep_requests(&objects);
    let watches = sweep_watch(&objects);
    print!("compare: {} calls in {lists} lists (seeds {first} to {}), ", tally.calls, first + lists - 1);
    print!("{tally}, ");
    print!("{swept} calls on every index, {entries} with every index as an entry, ");
    print!("{lengths} with every filter length over every count, ");
    print!("{requests} requests with every first byte, index and length, ");
    println!("{watches} calls with every node and time of a watch: none differs");
}
