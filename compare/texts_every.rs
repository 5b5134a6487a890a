//! Lists that leave nothing out: every index, every command, every number, every short line.

use crate::lists_objects::objects;
use crate::notation::BYTE_ORDER_MARK;
use crate::texts_every_remark::lists_of_every_remark;

/// A list with the name it is blamed by.
pub struct Named {
    pub name: String,
    pub list: Vec<u8>,
}

pub fn named(name: &str, list: Vec<u8>) -> Named {
    Named { name: name.into(), list }
}

pub fn lists_of_everything() -> Vec<Named> {
    let mut lists = vec![
        named("every index", every_index()),
        named("every sub-index and size", every_sub_index_and_size()),
        named("every command", every_command()),
        named("every number", every_number()),
        named("every filter length", every_filter_length()),
        named("every pair of bytes alone", every_pair(b"", b"")),
        named("every pair of bytes as data", every_pair(b"6200:1 = ", b"")),
        named("every pair of bytes as a sub-index", every_pair(b"6120:", b"")),
        named("every pair of bytes as a node number", every_pair(b"create ", b"")),
        named("every pair of bytes after a call", every_pair(b"drive", b"")),
        named("every pair of bytes expected", [b"create 5\n", &every_pair(b">", b"")[..]].concat()),
        named("every pair of bytes before a sign", [b"create 5\n", &every_pair(b"", b"> 0")[..]].concat()),
        named("every pair of bytes between words", [b"6200:1\n", &every_pair(b"> 0 =", b"00")[..]].concat()),
        named("every length near the limit", every_length_near_the_limit()),
        named("every message and length of a frame", every_message_and_length()),
        named("every entry of a mapping", every_entry_of_a_mapping()),
        named("every pair of bytes as a message", every_pair(b"receive ", b"")),
        named("every pair of bytes as a frame", every_pair(b"transmit 1 ", b"")),
        named("every pair of bytes after an empty frame", every_pair(b"transmit 1 /", b"")),
        named("every first byte of a request", every_first_byte()),
        named("every length of a request and of a reply", every_length_of_a_request()),
        named("every pair of bytes as a request", every_pair(b"request ", b"")),
        named("every pair of bytes as a first byte", every_pair(b"request ", b" 0 62 1 5 0 0 0")),
        named("every pair of bytes after a request", every_pair(b"request 40 0 62 1 0 0 0 0", b"")),
        named("every pair of bytes as a reply", every_pair(b"request 40 0 62 1 0 0 0 0 /", b"")),
        named("every node and heartbeat", every_node_and_heartbeat()),
        named("every spelling of elapsed time", every_spelling_of_elapsed_time()),
        named("every pair of bytes as a heartbeat", every_pair(b"heartbeat ", b"")),
        named("every pair of bytes after a heartbeat", every_pair(b"heartbeat 1", b"")),
        named("every pair of bytes as elapsed time", every_pair(b"elapsed ", b"")),
        named("every pair of bytes after the largest time", every_pair(b"elapsed 42949672", b"")),
        named("every pair of bytes before a time", every_pair(b"elapsed", b"5")),
    ];
    lists.extend(lists_of_every_remark());
    lists.extend(every_start());
    lists
}

fn every_index() -> Vec<u8> {
    (0..=u16::MAX).map(|index| format!("{index:X}\n{index:04x}:1\n")).collect::<String>().into_bytes()
}

fn every_sub_index_and_size() -> Vec<u8> {
    let mut list = String::new();
    for object in objects() {
        for sub in 0..=u8::MAX {
            list += &format!("{:04X}:{sub:x}\n", object.index);
            for length in 0..6 {
                list += &format!("{:04X}:{sub:02X} ={}\n", object.index, " 1".repeat(length));
            }
        }
    }
    list.into_bytes()
}

/// The entry 6200:1 tells after each command whether the node is stopped.
fn every_command() -> Vec<u8> {
    let mut list = String::from("create 5\n");
    for code in 0..=256 {
        for node in 0..=256 {
            list += &format!("command {code} {node}\n6200:1\n");
        }
    }
    list.into_bytes()
}

/// With a mapping of two bytes for each of the four; numbers and lengths go beyond both ends.
fn every_message_and_length() -> Vec<u8> {
    let mut list = String::from("create 5\nstart\n");
    for number in 0..4 {
        list += &format!("160{number}:1 = 10 0{} 11 64\n160{number} = 1\n", number + 1);
        list += &format!("1A0{number}:1 = 10 0{} 00 61\n1A0{number} = 1\n", number + 1);
    }
    for number in (0..7).chain([10, 255, 256, 257]) {
        for length in 0..68 {
            let bytes = format!(" {number:02X}").repeat(length);
            list += &format!("receive {number}{bytes}\n6411:{:X}\ntransmit {number}{bytes}\n", number % 9);
            list += &format!("transmit {number} /{bytes}\nreceive {number}{bytes} /\n");
        }
    }
    list.into_bytes()
}

/// Every object and a few indices beside, at some sub-indices, with each length of bits, written into one of
/// either direction's entries.
fn every_entry_of_a_mapping() -> Vec<u8> {
    let mut list = String::from("create 5\n");
    let indices: Vec<u16> = objects().iter().map(|object| object.index).chain([0, 1, 5, 7, 0x6201]).collect();
    for index in indices {
        let [low, high] = index.to_le_bytes();
        for sub in [0, 1, 4, 5, 8, 9, 16, 17, 128, 129, 255] {
            for bits in [0, 1, 7, 8, 9, 16, 17, 24, 32, 33, 64, 255] {
                list += &format!("1600:1 = {bits:X} {sub:X} {low:X} {high:X}\n1600:1\n");
                list += &format!("1A03:8 = {bits:X} {sub:X} {low:X} {high:X}\n1A03:8\n");
            }
        }
    }
    list.into_bytes()
}

/// On entries of each size, a read-only and absent ones, in each state of the node.
fn every_first_byte() -> Vec<u8> {
    let mut list = String::from("create 5\n6200:1 = 81\n");
    for state in ["pre-operational", "start", "stop"] {
        list += &format!("{state}\n");
        for entry in
            ["0 62 1", "0 63 2", "20 63 1", "3 20 0", "1 16 1", "0 60 1", "0 10 0", "1 62 1", "0 62 11"]
        {
            for first in 0..=u8::MAX {
                list += &format!("request {first:X} {entry} 8 1 0 62 / F1 F2 F3 F4 F5 F6 F7 F8\n");
                list += &format!("request {first:02x} {entry} 1 FF FF FF\n6200:1\n");
            }
        }
    }
    list.into_bytes()
}

/// Beyond what a buffer may have, also without a reply buffer, and with one slash too many.
fn every_length_of_a_request() -> Vec<u8> {
    let mut list = String::from("create 5\n");
    for request in (0..12).chain(62..68) {
        let upload = [" 40", " 0", " 62", " 1", " A", " B", " C", " D"];
        let bytes: String = upload.into_iter().cycle().take(request).collect();
        list += &format!("request{bytes}\n");
        for reply in (0..12).chain(62..68) {
            list += &format!("request{bytes} /{}\n", " E7".repeat(reply));
            list += &format!("request{bytes} /{} /\n", " E7".repeat(reply));
        }
    }
    for state in ["start", "stop"] {
        list += &format!("{state}\nrequest 40 0 62 1 0 0 0 / 1\nrequest 40 0 62 1 0 0 0 0 / 1\n");
        list += "request 80 0 62 1 0 0 0 0 / 1\nrequest 0 0 62 1 0 0 0 0 /\n";
        list += "request / 1 2 3 4 5 6 7 8\nrequest /\nrequest\n";
    }
    list.into_bytes()
}

/// With both ends too far; each number stands once in every channel's place.
fn every_number() -> Vec<u8> {
    let mut list = String::from("start\n6423 = 01\n");
    for number in -32_800..=32_800 {
        let channel = number & 15;
        let numbers: Vec<String> = (0..16).map(|at| (number - at).to_string()).collect();
        list += &format!("sample{} / {}\n6401:{:X}\n", " 5A".repeat(16), numbers.join(" "), channel + 1);
    }
    list.into_bytes()
}

/// Under each length the first 32 lines differ until they settle, to and fro; then each command over one.
fn every_filter_length() -> Vec<u8> {
    let mut list = String::from("start\n6123:1 = FF FF FF FF\n");
    for length in 0..=255 {
        let byte = if length % 2 == 1 { " FF" } else { " 0" };
        let sample = format!("sample{} /{}\n", byte.repeat(16), " 0".repeat(16));
        list += &format!("2003 = {length:x}\n2003\n{}6120:1\n", sample.repeat(length));
    }
    for code in [1, 2, 128, 130, 129] {
        list += &format!("2003 = 7\ncommand {code} 0\n2003\n2003 = 5\npre-operational\n2003\n");
    }
    list.into_bytes()
}

/// Numbers of nodes go beyond a byte; the register tells whether the entry has expired.
fn every_node_and_heartbeat() -> Vec<u8> {
    let mut list = String::from("create 5\nstart\n");
    for node in (0..=300).chain([511, 512, 1000, 65_535, 65_536, 65_541]) {
        let sub = 1 + node % 4;
        list += &format!("1016:{sub} = A 0 {:X} 0\n1016:{sub}\nheartbeat {node}\n", node % 256);
        list += "elapsed 9\n1001\nelapsed 1\n1001\nelapsed 10\nclear communication\n";
        list += &format!("1016:{sub} = 0 0 0 0\nheartbeat 0{node}\n");
        list += &format!("heartbeat {node} {node}\nheartbeat -{node}\n");
    }
    list.into_bytes()
}

/// Of times at the ends of what 16, 32 and 64 bits hold, right and wrong ones.
fn every_spelling_of_elapsed_time() -> Vec<u8> {
    let mut list = String::from("create 5\n1016:1 = FF FF 5 0\n");
    let starts: [u128; 8] = [0, 9, 65_530, 99_995, 4_294_967_290, 9_999_999_995, 1 << 63, (1 << 64) - 6];
    for time in starts.into_iter().flat_map(|start| start..start + 12) {
        let zeros = "0".repeat(30);
        for spelled in [
            format!("{time}"),
            format!("0{time}"),
            format!("{zeros}{time}"),
            format!("{time}0"),
            format!("-{time}"),
            format!("+{time}"),
            format!("{time} 0"),
            format!("{time} # 0"),
            format!("{time}."),
            format!("{time:#x}"),
            format!("\t {time} \t"),
        ] {
            list += &format!("heartbeat 5\nelapsed {spelled}\n1001\nelapsed 65534\n1001\nelapsed 1\n1001\n");
            list += "clear communication\n";
        }
    }
    list += "elapsed\nheartbeat\nelapsed \nheartbeat#\nElapsed 5\nHEARTBEAT 5\nelapsed5\nheartbeat5\n";
    list.into_bytes()
}

fn every_pair(start: &[u8], end: &[u8]) -> Vec<u8> {
    let mut list = Vec::new();
    for pair in 0..=u16::MAX {
        list.extend(start);
        list.extend(pair.to_be_bytes());
        list.extend(end);
        list.push(b'\n');
    }
    list
}

/// Lines that are right, made longer by what says nothing; the same after a line that is no call.
fn every_length_near_the_limit() -> Vec<u8> {
    let mut list = Vec::new();
    for length in 1000..1050 {
        for filler in [b' ', b'\t', b'#', b'('] {
            for end in [b"\n".as_slice(), b"\r\n"] {
                list.extend(b"6200:1\n> 0 = 00");
                list.resize(list.len() + length - 8, filler);
                list.extend(end);
                list.extend(b"> 0 = 00\n>");
                list.resize(list.len() + length - 1, b'0');
                list.extend(end);
                list.push(b'>');
                list.extend(b"0 ".repeat(length).iter().take(length - 1));
                list.extend(end);
                list.resize(list.len() + length - 3, b' ');
                list.extend(b"> 0");
                list.extend(end);
            }
        }
    }
    list
}

/// Up to four bytes that a byte order mark or a line's end may hold, alone and before lines; several marks,
/// and a mark before a line at the limit.
fn every_start() -> Vec<Named> {
    let mut starts: Vec<Vec<u8>> = vec![Vec::new()];
    let mut from = 0;
    while starts[from].len() < 4 {
        for byte in [0xEF, 0xBB, 0xBF, b'\n'] {
            starts.push([&starts[from], &[byte][..]].concat());
        }
        from += 1;
    }
    let mark = BYTE_ORDER_MARK;
    starts.extend([[mark, mark].concat(), [mark, b" ", mark].concat(), [mark, mark, mark].concat()]);
    starts.extend((1010..1030).map(|length| [mark, &vec![b' '; length]].concat()));
    let mut lists = Vec::new();
    for (at, start) in starts.into_iter().enumerate() {
        lists.push(named(&format!("start {at} with lines"), [&start, &b"6200:1\n> 0 = 00\n"[..]].concat()));
        lists.push(named(&format!("start {at}"), start));
    }
    lists
}
