//! The notation's lines of Item 5. Nothing fixes what is expected where one of them is not understood.

use crate::notation::{decimal, number_of_a_byte, Asked};
use crate::notation_messages::Complaint;

/// The call of a line that begins with `heartbeat` or `elapsed`; none for any other line.
pub fn watch_call(words: &[&[u8]]) -> Option<Result<Asked, Complaint>> {
    let asked = match words {
        // "a heartbeat of that node, 0 to 255".
        [b"heartbeat", rest @ ..] => one_word(rest).and_then(number_of_a_byte).map(Asked::Heartbeat),
        // "milliseconds, 0 to 4294967295".
        [b"elapsed", rest @ ..] => one_word(rest).and_then(milliseconds).map(Asked::Elapsed),
        _ => return None,
    };
    Some(asked.ok_or(None))
}

fn one_word<'a>(words: &[&'a [u8]]) -> Option<&'a [u8]> {
    match words {
        [word] => Some(word),
        _ => None,
    }
}

fn milliseconds(word: &[u8]) -> Option<u32> {
    u32::try_from(decimal(word)?).ok()
}
