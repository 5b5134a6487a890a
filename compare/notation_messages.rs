//! The notation's lines of Item 1, and what is expected where one of them is not understood.

use crate::calls::Message;
use crate::notation::{buffer_of, data_byte, decimal, items_of, Asked, MOST_ITEMS_OF_A_BUFFER};

const EXPECTED_A_MESSAGE: &str = "expected a number from 1 to 4";
const EXPECTED_A_BYTE: &str = "expected 1 or 2 hexadecimal digits";
const EXPECTED_FEWER: &str = "expected at most 64 in a buffer";
const EXPECTED_THE_END: &str = "expected the end of the line";

/// What is said of a line that is not understood; none where nothing fixes it.
pub type Complaint = Option<&'static str>;

/// The call of a line that begins with `receive` or `transmit`; none for any other line.
pub fn message_call(words: &[&[u8]]) -> Option<Result<Asked, Complaint>> {
    match words {
        [b"receive", rest @ ..] => Some(receive_of(rest)),
        [b"transmit", rest @ ..] => Some(transmit_of(rest)),
        _ => None,
    }
}

fn receive_of(words: &[&[u8]]) -> Result<Asked, Complaint> {
    let (message, bytes) = message_of(words)?;
    Ok(Asked::Receive { message, frame: frame_of(bytes)? })
}

fn transmit_of(words: &[&[u8]]) -> Result<Asked, Complaint> {
    let (message, rest) = message_of(words)?;
    let frame = match rest {
        [] => vec![0; 8],
        [b"/"] => Vec::new(),
        [b"/", ..] => return Err(Some(EXPECTED_THE_END)),
        bytes => frame_of(bytes)?,
    };
    Ok(Asked::Transmit { message, frame })
}

/// The number comes first, so it is the first to be missed.
fn message_of<'a, 'b>(words: &'a [&'b [u8]]) -> Result<(Message, &'a [&'b [u8]]), Complaint> {
    let (number, rest) = words.split_first().ok_or(Some(EXPECTED_A_MESSAGE))?;
    match decimal(number) {
        Some(number @ 1..=4) => Ok((Message::ALL[number as usize - 1], rest)),
        _ => Err(Some(EXPECTED_A_MESSAGE)),
    }
}

/// The bytes of a lent buffer.
pub fn frame_of(words: &[&[u8]]) -> Result<Vec<u8>, Complaint> {
    let many = words.len() > MOST_ITEMS_OF_A_BUFFER;
    match (items_of(words, data_byte).is_some(), many) {
        (true, true) => Err(Some(EXPECTED_FEWER)),
        (false, false) => Err(Some(EXPECTED_A_BYTE)),
        // Nothing says which of the two is missed first.
        (false, true) => Err(None),
        (true, false) => buffer_of(words, data_byte).ok_or(None),
    }
}
