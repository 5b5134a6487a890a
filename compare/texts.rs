//! Random lists as text: calls spelled in every way, expecting lines, empty lines and comments, lines at
//! the length limit, and lines spoiled word by word or byte by byte. The same seed makes the same list.

use crate::calls::Call;
use crate::lists::{Random, Source};
use crate::notation::BYTE_ORDER_MARK;
use crate::play_model::Player;
use crate::texts_expects::{expecting_line, length_near_the_limit};
use crate::texts_remarks::Remarks;
use crate::texts_spoil::{spoil_a_byte, spoil_a_word};
use crate::texts_words::{blanks, create, words_of, Word};

const LINES_OF_A_LONG_LIST: usize = 100_000;
/// So many that every kind of words comes some times.
const LINES_OF_REMARKS: usize = 20_000;
/// A byte order mark, two, parts of one, and one that is not at the very start.
const STARTS: [&[u8]; 9] = [
    BYTE_ORDER_MARK,
    BYTE_ORDER_MARK,
    b"\xEF\xBB\xBF\xEF\xBB\xBF",
    b"\xEF",
    b"\xEF\xBB",
    b"\xBB\xBF",
    b"\xEF\xBB\xBE",
    b"\xEF\xEF\xBB\xBF",
    b" \xEF\xBB\xBF",
];

pub struct Texts {
    random: Random,
    source: Source,
    remarks: Remarks,
    /// Calls that aim at the words in parentheses, in percent of all.
    remarked: usize,
    /// In percent of the lines that hold a call.
    spoiled: usize,
    /// Expecting lines, in percent of all.
    expecting: usize,
    /// Plays what is written so far, so that an expecting line can be right.
    player: Player,
    played: usize,
}

/// The list of a seed; every thousandth is long.
pub fn list_of(seed: u64) -> Vec<u8> {
    // The source draws from the seed itself, so the texts draw from another.
    let mut random = Random::new(seed ^ 0x6E6F_7461_7469_6F6E);
    let spoiled = random.pick(&[0, 4, 20, 60]);
    let some_hundred = 100 + random.below(400);
    let lines = if seed % 1000 == 0 { LINES_OF_A_LONG_LIST } else { some_hundred };
    let expecting = random.pick(&[0, 5, 30, 60]);
    let remarked = random.pick(&[10, 30, 60]);
    Texts { remarked, spoiled, expecting, ..Texts::of_calls(random, seed) }.list(lines)
}

/// A list of calls alone, of which most aim at the words in parentheses.
pub fn list_of_remarks(seed: u64) -> Vec<u8> {
    let random = Random::new(seed ^ 0x72_656D_6172_6B73);
    Texts { remarked: 85, ..Texts::of_calls(random, seed) }.list(LINES_OF_REMARKS)
}

impl Texts {
    fn of_calls(random: Random, seed: u64) -> Texts {
        Texts {
            random,
            source: Source::new(seed),
            remarks: Remarks::none(),
            remarked: 0,
            spoiled: 0,
            expecting: 0,
            player: Player::new(),
            played: 0,
        }
    }

    fn list(&mut self, lines: usize) -> Vec<u8> {
        let mut list = Vec::new();
        if self.random.chance(25) {
            list.extend(self.random.pick(&STARTS));
        }
        if list == BYTE_ORDER_MARK {
            self.played = list.len();
        }
        list.extend(self.opening());
        if self.random.chance(80) {
            let first = create(self.source.number(), &mut self.random);
            list.extend(self.spaced(&first));
            list.push(b'\n');
        }
        for _ in 0..lines {
            self.play_on(&list);
            list.extend(self.line());
            list.extend(self.random.pick(&LINE_ENDS));
        }
        if self.random.chance(30) {
            list.pop();
        }
        list
    }

    /// At times a few lines before the first call: one at the limit, right behind a mark, or expecting ones.
    fn opening(&mut self) -> Vec<u8> {
        let mut lines = Vec::new();
        for _ in 0..self.random.pick(&[0, 0, 0, 1, 3]) {
            lines.extend(match self.random.below(4) {
                0 => self.long_line(),
                1 => self.line_without_a_call(),
                _ => expecting_line(b"0", &mut self.random),
            });
            lines.push(b'\n');
        }
        lines
    }

    /// A line may hold a newline where it was spoiled, so the list is read again.
    fn play_on(&mut self, list: &[u8]) {
        while let Some(length) = list[self.played..].iter().position(|byte| *byte == b'\n') {
            self.player.take(&list[self.played..self.played + length]);
            self.played += length + 1;
        }
    }

    fn line(&mut self) -> Vec<u8> {
        if self.random.chance(self.expecting) {
            let last = self.player.last_answer().unwrap_or(b"0");
            return expecting_line(last, &mut self.random);
        }
        match self.random.below(100) {
            0..4 => self.line_without_a_call(),
            4 => self.long_line(),
            5 if self.random.chance(self.spoiled) => self.any_bytes(),
            _ => {
                let words = self.words_of_a_call();
                if self.random.chance(self.spoiled) {
                    self.spoiled_line(words)
                } else {
                    self.spaced(&words)
                }
            }
        }
    }

    fn words_of_a_call(&mut self) -> Vec<Word> {
        if self.random.chance(1) {
            let any = self.random.next() as u8;
            let number = self.random.pick(&[self.source.number(), any & 127, any, 0, 127, 128]);
            return create(number, &mut self.random);
        }
        if self.random.chance(self.remarked) {
            let call = self.remarks.call(&self.player.device, &mut self.random);
            return words_of(&call, &mut self.random);
        }
        let mut call = self.source.call();
        if let Call::Command { node, .. } = &mut call {
            // A list without create plays on node 1, and a refused create leaves node 127.
            if self.random.chance(30) {
                *node = self.random.pick(&[1, 127]);
            }
        }
        words_of(&call, &mut self.random)
    }

    /// Mostly single spaces; at times several, also before and after, and a comment.
    fn spaced(&mut self, words: &[Word]) -> Vec<u8> {
        let most = if self.random.chance(15) { 4 } else { 1 };
        let mut line = blanks(self.random.below(most), &mut self.random);
        for word in words {
            line.extend(word);
            line.extend(blanks(1 + self.random.below(most), &mut self.random));
        }
        if most == 1 || self.random.chance(30) {
            line.pop();
        }
        if self.random.chance(5) {
            line.extend(self.comment());
        }
        line
    }

    fn comment(&mut self) -> Vec<u8> {
        let length = self.random.below(30);
        let mut comment = vec![b'#'];
        comment.extend((0..length).map(|_| self.random.next() as u8).filter(|byte| *byte != b'\n'));
        comment
    }

    fn line_without_a_call(&mut self) -> Vec<u8> {
        let spaces = blanks(self.random.below(5), &mut self.random);
        match self.random.below(5) {
            0 | 1 => Vec::new(),
            2 => spaces,
            3 => [spaces, self.comment()].concat(),
            _ => {
                let words = self.words_of_a_call();
                [b"# ".to_vec(), self.spaced(&words)].concat()
            }
        }
    }

    fn any_bytes(&mut self) -> Vec<u8> {
        let length = 1 + self.random.below(40);
        (0..length).map(|_| self.random.next() as u8).collect()
    }

    /// A call brought to a length at the limit or far beyond it, by spaces, a comment or zeros.
    fn long_line(&mut self) -> Vec<u8> {
        let length = length_near_the_limit(&mut self.random);
        let words = self.words_of_a_call();
        let mut line = self.spaced(&words);
        let missing = length.saturating_sub(line.len());
        match self.random.below(6) {
            0 => line.resize(line.len() + missing, b' '),
            1 => line = [vec![b' '; missing], line].concat(),
            2 if missing > 0 => {
                line.push(b'#');
                line.resize(line.len() + missing - 1, b'x');
            }
            3 => line = [b"#".to_vec(), vec![b'y'; length - 1]].concat(),
            4 => line = [b"create ".to_vec(), vec![b'0'; length - 8], b"9".to_vec()].concat(),
            _ => {
                let first = line.iter().position(|byte| *byte == b' ').unwrap_or(line.len());
                line.splice(first..first, vec![b' '; missing]);
            }
        }
        line
    }

    fn spoiled_line(&mut self, mut words: Vec<Word>) -> Vec<u8> {
        if self.random.chance(30) {
            let mut line = self.spaced(&words);
            for _ in 0..1 + self.random.below(3) {
                spoil_a_byte(&mut line, &mut self.random);
            }
            return line;
        }
        for _ in 0..self.random.pick(&[1, 1, 1, 2]) {
            spoil_a_word(&mut words, &mut self.random);
        }
        self.spaced(&words)
    }
}

/// Weighted by how often each stands here.
const LINE_ENDS: [&[u8]; 40] = {
    let mut ends: [&[u8]; 40] = [b"\n"; 40];
    ends[0] = b"\r\n";
    ends[1] = b"\r\n";
    ends[2] = b"\r\n";
    ends[3] = b"\r\n";
    ends[4] = b" \r\n";
    ends[5] = b" \n";
    ends[6] = b"\t\n";
    ends[7] = b"\t\r\n";
    ends[8] = b"\r\r\n";
    ends
};
