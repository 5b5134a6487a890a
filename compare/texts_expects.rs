//! Expecting lines: the last answer's words spelled in every way, and words that are wrong.

use crate::lists::Random;
use crate::notation::answer_words;
use crate::texts_spoil::{odd_word, spoil_a_byte, spoil_a_word};
use crate::texts_words::{blanks, Word};

/// Mostly at the limit, else far beyond it.
pub fn length_near_the_limit(random: &mut Random) -> usize {
    match random.below(20) {
        0..16 => 1022 + random.below(6),
        16..19 => 1028 + random.below(4000),
        _ => 65_530 + random.below(12),
    }
}

/// A line that expects this answer, or words near it.
pub fn expecting_line(last: &[u8], random: &mut Random) -> Vec<u8> {
    let mut words: Vec<Word> = answer_words(last).into_iter().map(<[u8]>::to_vec).collect();
    match random.below(100) {
        0..70 => {}
        70..82 => spoil_a_word(&mut words, random),
        82..86 => words.iter_mut().for_each(|word| word.make_ascii_lowercase()),
        86..90 => words.clear(),
        90..93 => words = (0..random.below(5)).map(|_| odd_word(random)).collect(),
        93..95 => return long(&words, random),
        95..97 => return long_words(random),
        97..99 => {
            let mut line = spelled(&words, random);
            spoil_a_byte(&mut line, random);
            return line;
        }
        _ => words = vec![any_bytes(random)],
    }
    spelled(&words, random)
}

fn any_bytes(random: &mut Random) -> Vec<u8> {
    (0..random.below(30)).map(|_| random.next() as u8).filter(|byte| *byte != b'\n').collect()
}

/// Mostly `> 0 = 0F`; at times more blanks, also before and after, or fewer.
fn spelled(words: &[Word], random: &mut Random) -> Vec<u8> {
    let most = if random.chance(30) { 4 } else { 1 };
    let mut line = blanks(random.below(most), random);
    line.push(b'>');
    if random.chance(80) {
        line.push(b' ');
    }
    for (at, word) in words.iter().enumerate() {
        let least = usize::from(at > 0);
        line.extend(blanks(least + random.below(most), random));
        line.extend(word);
    }
    line.extend(blanks(random.below(most), random));
    line.extend(tail(random));
    line
}

/// What is not compared: words in parentheses, closed or not, and a comment.
fn tail(random: &mut Random) -> Vec<u8> {
    let any = any_bytes(random);
    match random.below(20) {
        0..2 => b" (output, lines 1 to 8)".to_vec(),
        2 => b"(x)".to_vec(),
        3 => [b" (".to_vec(), any].concat(),
        4 => [b"#".to_vec(), any].concat(),
        5 => b" # > 0 (x)".to_vec(),
        6 => b" (a # b) 0".to_vec(),
        _ => Vec::new(),
    }
}

/// Brought to a length at the limit by what is not compared.
fn long(words: &[Word], random: &mut Random) -> Vec<u8> {
    let mut line = [b">".to_vec(), words.join(&b' ')].concat();
    let missing = length_near_the_limit(random).saturating_sub(line.len());
    let filler = match random.below(6) {
        0 => vec![b'\t'; missing],
        1 => [b"(".to_vec(), vec![b'x'; missing]].concat(),
        2 => [b"#".to_vec(), vec![b'y'; missing]].concat(),
        _ => blanks(missing, random),
    };
    // The sign may come last, so that the line tells what it is only there.
    let at = random.pick(&[0, 1, line.len()]);
    line.splice(at..at, filler[..missing].to_vec());
    line
}

/// Words that fill the line, so that the answer to it is longer than any line.
fn long_words(random: &mut Random) -> Vec<u8> {
    let length = length_near_the_limit(random);
    let word = if random.chance(50) { b"0".to_vec() } else { odd_word(random) };
    let parted = random.pick(&[10, 90, 100]);
    let mut line = vec![b'>'];
    while line.len() < length {
        line.extend(&word);
        if random.chance(parted) {
            line.push(b' ');
        }
    }
    line.truncate(length);
    line
}
