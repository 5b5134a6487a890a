//! The notation's line of Item 3, and what is expected where it is not understood.

use crate::notation::Asked;
use crate::notation_messages::{frame_of, Complaint};

const REPLY_BYTES: usize = 8;

/// The call of a line that begins with `request`; none for any other line.
pub fn request_call(words: &[&[u8]]) -> Option<Result<Asked, Complaint>> {
    match words {
        [b"request", rest @ ..] => Some(request_of(rest)),
        _ => None,
    }
}

/// "the request's bytes; after `/` the reply buffer's content before the call, otherwise eight bytes of 00".
/// Buffers have 0 to 64 bytes, so that both may be empty.
fn request_of(words: &[&[u8]]) -> Result<Asked, Complaint> {
    let (request, reply) = match words.iter().position(|word| *word == b"/") {
        None => (frame_of(words), Ok(vec![0; REPLY_BYTES])),
        // A second slash is no byte of the reply buffer.
        Some(slash) => (frame_of(&words[..slash]), frame_of(&words[slash + 1..])),
    };
    match (request, reply) {
        (Ok(request), Ok(reply)) => Ok(Asked::Request { request, reply }),
        // Nothing says which of the two is missed first.
        (Err(one), Err(other)) if one != other => Err(None),
        (Err(complaint), _) | (_, Err(complaint)) => Err(complaint),
    }
}
