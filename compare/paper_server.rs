//! Item 3 of document 02, the service data server. A request is laid out as in CiA 301: the first byte says
//! what is asked for, then stand the index, the sub-index and four bytes of data.

use crate::calls::{Answer, Machine};
use crate::paper::Device;
use crate::paper_node::State;
use crate::paper_objects::object;

/// What the first byte of a request asks for.
pub enum Service {
    Abort,
    Upload,
    /// Expedited; in bytes, where it tells its size.
    Download {
        told: Option<usize>,
    },
    AnythingElse,
}

/// "expedited download and upload as in CiA 301": bits 5 to 7 say which; in a download bit 1 says that it is
/// expedited, bit 0 that it tells its size, and bits 2 and 3 are then how much of the four bytes is spare.
pub fn service(first: u8) -> Service {
    let (expedited, size_told) = (first >> 1 & 1 == 1, first & 1 == 1);
    // "Reserved bits aren't read": bit 4, bits 2 and 3 where no size is told, all five of an abort or an upload.
    match first >> 5 {
        4 => Service::Abort,
        2 => Service::Upload,
        1 if expedited && size_told => Service::Download { told: Some(4 - usize::from(first >> 2 & 3)) },
        1 if expedited => Service::Download { told: None },
        _ => Service::AnythingElse,
    }
}

/// "A download that doesn't tell its size has the entry's own." Where none is, an earlier row refuses it.
pub fn size_of_download(told: Option<usize>, index: u16, sub: u8) -> usize {
    told.unwrap_or_else(|| object(index).map_or(0, |object| object.size(sub)))
}

/// The first byte of a reply and its last four, or the code of an abort reply.
type Done = Result<(u8, [u8; 4]), u32>;

impl Device {
    pub fn serve(&mut self, request: &[u8], reply: &mut [u8]) -> Answer {
        // "Request not 8 bytes long: number 7, checked first."
        let Ok([first, low, high, sub, data @ ..]) = <[u8; 8]>::try_from(request) else {
            return Answer::refused(7);
        };
        // "Reply buffer not 8 long: 5, next,"
        if reply.len() != 8 {
            return Answer::refused(5);
        }
        // "then the stopped check." "any request while stopped, gets no reply and leaves the buffer."
        if self.node.state == State::Stopped {
            return Answer::default();
        }
        let index = u16::from_le_bytes([low, high]);
        let done = match service(first) {
            // "A client's abort [..] gets no reply and leaves the buffer."
            Service::Abort => return Answer::default(),
            Service::Upload => self.upload(index, sub),
            Service::Download { told } => self.download(index, sub, told, data),
            // "Anything but an abort, an upload or an expedited download: an abort reply with 05040001, after it."
            Service::AnythingElse => Err(0x0504_0001),
        };
        // "Each plain refusal becomes an abort reply with its code;"
        let (kind, last) = done.unwrap_or_else(|code| (0x80, code.to_le_bytes()));
        // "an abort reply repeats its request's second to fourth bytes."; CiA 301 has them in the others too.
        reply[..4].copy_from_slice(&[kind, low, high, sub]);
        reply[4..].copy_from_slice(&last);
        // "the call then answers number 0 and the reply's length, 8 or 0."
        Answer { count: 8, ..Answer::default() }
    }

    /// "A request does exactly what the plain call does, for the machines too."
    fn upload(&mut self, index: u16, sub: u8) -> Done {
        let read = self.read(index, sub);
        if read.number != 0 {
            return Err(read.number);
        }
        // "an upload reply tells its size,": expedited and size told, with the spare bytes in bits 2 and 3.
        let kind = match read.size {
            1 => 0x4F,
            2 => 0x4B,
            4 => 0x43,
            _ => unreachable!(),
        };
        // "spare reply bytes are 0,"
        let mut last = [0; 4];
        last[..read.size].copy_from_slice(&read.value.to_le_bytes()[..read.size]);
        Ok((kind, last))
    }

    /// As above.
    fn download(&mut self, index: u16, sub: u8, told: Option<usize>, data: [u8; 4]) -> Done {
        match self.write(index, sub, &data[..size_of_download(told, index, sub)]).number {
            // "spare reply bytes are 0,"
            0 => Ok((0x60, [0; 4])),
            code => Err(code),
        }
    }
}
