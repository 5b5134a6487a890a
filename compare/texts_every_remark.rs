//! Lists that leave nothing out of the words in parentheses: every output, polarity, error mode and error value in
//! fault and outside, masks of every shape, numbers at every length, sets of event sources, and every object by
//! requests of every size.

use crate::lists::Random;
use crate::lists_objects::{objects, Object, DIGITAL_OBJECTS};
use crate::texts_every::{named, Named};

pub fn lists_of_every_remark() -> Vec<Named> {
    vec![
        named("every entry in fault and outside", every_entry_in_fault()),
        named("every mask", every_mask()),
        named("every length of a number", every_length_of_a_number()),
        named("every set of event sources", every_set_of_sources()),
        named("every object by requests", every_object_by_requests()),
    ]
}

fn bytes(value: u64, size: usize) -> String {
    value.to_le_bytes()[..size].iter().map(|byte| format!(" {byte:02X}")).collect()
}

/// A write of at most four bytes as a plain one, and as requests that tell its size and do not.
fn every_write(index: u16, sub: u8, value: u64, size: usize) -> String {
    let [low, high] = index.to_le_bytes();
    let entry = format!("{low:X} {high:X} {sub:X}");
    let data = bytes(value, 4);
    let told = 0x23 + 4 * (4 - size);
    format!(
        "{index:04X}:{sub:X} ={}\nrequest {told:X} {entry}{data}\nrequest 22 {entry}{data}\n",
        bytes(value, size)
    )
}

/// Each row of the outputs by each width at each place, and the output channels, under no cause, each and both.
/// Their masks are 1, 0 or both by turns.
fn every_entry_in_fault() -> Vec<u8> {
    let rows = [6, 7, 8, 9].into_iter().flat_map(|row| 4 * row..4 * row + 4);
    let channels = DIGITAL_OBJECTS + 7..DIGITAL_OBJECTS + 10;
    let entries: Vec<Object> = rows.chain(channels).map(|at| objects()[at]).collect();
    let mut list = String::from("create 5\n6328:1 = 0 0 0 0\n6328:2 = F8 01 AA 81\n6328:3 = 0 FF FF 7F\n");
    let causes = ["raise internal", "raise communication", "clear internal", "clear communication", "start"];
    for cause in causes {
        for object in &entries {
            for sub in 1..=object.last {
                list += &every_write(object.index, sub, 1, object.size);
            }
        }
        list += &format!("{cause}\n1001\n");
    }
    list.into_bytes()
}

/// Of eight lines each, and of 16 and 32 lines many: all runs, and any. Each is met outside fault and in it.
fn every_mask() -> Vec<u8> {
    let mut random = Random::new(1);
    let mut masks: Vec<(usize, u64)> = (0..=255).map(|mask| (1, mask)).collect();
    for size in [2, 4] {
        let width = 8 * size;
        for (first, last) in (0..width).flat_map(|first| (first..width).map(move |last| (first, last))) {
            let run = (2 << last) - (1 << first);
            masks.extend([(size, run), (size, !run)]);
        }
        masks.extend((0..2000).map(|_| (size, random.next())));
    }
    let mut list = String::from("create 5\n");
    for (at, (size, mask)) in masks.into_iter().enumerate() {
        let (outputs, last) = [(0x6200, 16), (0x6300, 8), (0x6320, 4)][size / 2];
        let sub = 1 + (at % last) as u8;
        list += &format!("{:04X}:{sub:X} ={}\n", outputs + 8, bytes(mask, size));
        for cause in ["raise internal", "clear internal"] {
            list += &format!("{outputs:04X}:{sub:X} ={}\n{cause}\n", bytes(random.next(), size));
        }
    }
    list.into_bytes()
}

/// Around each power of 2 and of 10, in both signs, written into each object of a channel and read back.
fn every_length_of_a_number() -> Vec<u8> {
    let powers = (0..32).map(|bit| 1 << bit).chain((0..10).map(|digits| 10i64.pow(digits)));
    let near: Vec<i64> = powers.flat_map(|power| [power - 1, power, power + 1]).collect();
    let mut list = String::from("create 5\n");
    for object in &objects()[DIGITAL_OBJECTS..DIGITAL_OBJECTS + 10] {
        for (at, number) in near.iter().flat_map(|number| [*number, -number]).enumerate() {
            let sub = 1 + at as u8 % object.last;
            let [low, high] = object.index.to_le_bytes();
            list += &every_write(object.index, sub, number as u64, object.size);
            list += &format!("{:04X}:{sub:X}\nrequest 40 {low:X} {high:X} {sub:X} 0 0 0 0\n", object.index);
        }
    }
    for number in 0..=255 {
        for index in [0x2003, 0x6005, 0x6423] {
            list += &every_write(index, 0, number, 1);
        }
        list += &every_write(0x1029, 1, number, 1);
        list += "2003\n6005\n6423\n1029:1\n1000\n1001\n";
    }
    list.into_bytes()
}

/// Of eight channels that follow each other each set, read by turns as an entry and as an upload.
fn every_set_of_sources() -> Vec<u8> {
    let mut list = String::from("create 5\nstart\n6423 = 1\n");
    let mut numbers = [0; 16];
    for (set, first) in (0..=255).flat_map(|set| [0, 4, 8].map(|first| (set, first))) {
        for channel in (0..8).filter(|channel| set >> channel & 1 == 1) {
            numbers[first + channel] ^= 100;
        }
        let numbers: Vec<String> = numbers.iter().map(i32::to_string).collect();
        list += &format!("sample{} / {}\n", " 0".repeat(16), numbers.join(" "));
        list += if set % 2 == 0 { "6422:1\n6422:1\n" } else { "request 40 22 64 1 0 0 0 0\n6422\n" };
    }
    list.into_bytes()
}

/// Uploads, and downloads of untold size and of each that can be told, at the ends of each object and beyond.
fn every_object_by_requests() -> Vec<u8> {
    let mut list = String::from("create 5\n");
    for object in objects() {
        let [low, high] = object.index.to_le_bytes();
        for sub in [0, 1, object.last, object.last + 1, 255] {
            for first in [0x40, 0x22, 0x2F, 0x2B, 0x27, 0x23] {
                list += &format!("request {first:X} {low:X} {high:X} {sub:X} 1 0 0 0\n");
            }
        }
    }
    list.into_bytes()
}
