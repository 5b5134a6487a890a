//! The calls as every implementation offers them, and one call with its lent buffers.

#[derive(Clone, Copy, Debug, PartialEq)]
pub enum Cause {
    InternalFailure,
    CommunicationLoss,
}

/// One of the four messages of a direction: 1 is 1600 or 1A00, 4 is 1603 or 1A03.
#[derive(Clone, Copy, Debug, PartialEq)]
pub enum Message {
    One,
    Two,
    Three,
    Four,
}

impl Message {
    pub const ALL: [Message; 4] = [Message::One, Message::Two, Message::Three, Message::Four];
}

/// What a call answers beside the device and the lent buffers.
#[derive(Clone, Copy, Debug, Default, PartialEq)]
pub struct Answer {
    /// 0 where the call was accepted, else why it was refused.
    pub number: u32,
    pub value: u32,
    /// In bytes.
    pub size: usize,
    /// Bit n - 1 for analogue input n.
    pub events: u16,
    /// How many bytes a transmit wrote, or a request's reply has.
    pub count: usize,
}

impl Answer {
    pub fn refused(number: u32) -> Answer {
        Answer { number, ..Answer::default() }
    }
}

pub trait Machine: Clone {
    fn create(number: u8) -> (u32, Self);
    fn read(&mut self, index: u16, sub: u8) -> Answer;
    fn write(&mut self, index: u16, sub: u8, data: &[u8]) -> Answer;
    fn sample(&mut self, digital: &[u8], analogue: &[i16], events: &mut [u8]) -> Answer;
    fn command(&mut self, code: u8, node: u8) -> Answer;
    fn raise(&mut self, cause: Cause) -> Answer;
    fn clear(&mut self, cause: Cause) -> Answer;
    fn drive(&mut self, lines: &mut [u8], channels: &mut [i16]) -> Answer;
    fn receive(&mut self, message: Message, frame: &[u8]) -> Answer;
    fn transmit(&mut self, message: Message, frame: &mut [u8]) -> Answer;
    fn request(&mut self, request: &[u8], reply: &mut [u8]) -> Answer;
    fn heartbeat(&mut self, node: u8) -> Answer;
    fn elapsed(&mut self, milliseconds: u32) -> Answer;
}

/// A lent buffer of any length up to 24.
#[derive(Clone, Copy, Debug, PartialEq)]
pub struct Lent<T> {
    all: [T; 24],
    length: usize,
}

impl<T: Copy> Lent<T> {
    pub fn new(all: [T; 24], length: usize) -> Lent<T> {
        Lent { all, length }
    }

    pub fn part(&self) -> &[T] {
        &self.all[..self.length]
    }

    pub fn part_mut(&mut self) -> &mut [T] {
        &mut self.all[..self.length]
    }
}

/// These bytes, of which the first eight become a request as CiA 301 lays it out.
pub fn request_bytes(mut bytes: [u8; 24], first: u8, (index, sub): (u16, u8), data: [u8; 4]) -> [u8; 24] {
    let [low, high] = index.to_le_bytes();
    bytes[..4].copy_from_slice(&[first, low, high, sub]);
    bytes[4..8].copy_from_slice(&data);
    bytes
}

#[derive(Clone, Copy, Debug, PartialEq)]
pub enum Call {
    Read { index: u16, sub: u8 },
    Write { index: u16, sub: u8, data: Lent<u8> },
    Sample { digital: Lent<u8>, analogue: Lent<i16>, events: Lent<u8> },
    Command { code: u8, node: u8 },
    Raise(Cause),
    Clear(Cause),
    Drive { lines: Lent<u8>, channels: Lent<i16> },
    Receive { message: Message, frame: Lent<u8> },
    Transmit { message: Message, frame: Lent<u8> },
    Request { request: Lent<u8>, reply: Lent<u8> },
    Heartbeat { node: u8 },
    Elapsed { milliseconds: u32 },
}

impl Call {
    /// Makes the call; what the device fills in a lent buffer stands in `self` afterwards.
    pub fn play<M: Machine>(&mut self, device: &mut M) -> Answer {
        match self {
            Call::Read { index, sub } => device.read(*index, *sub),
            Call::Write { index, sub, data } => device.write(*index, *sub, data.part()),
            Call::Sample { digital, analogue, events } => {
                device.sample(digital.part(), analogue.part(), events.part_mut())
            }
            Call::Command { code, node } => device.command(*code, *node),
            Call::Raise(cause) => device.raise(*cause),
            Call::Clear(cause) => device.clear(*cause),
            Call::Drive { lines, channels } => device.drive(lines.part_mut(), channels.part_mut()),
            Call::Receive { message, frame } => device.receive(*message, frame.part()),
            Call::Transmit { message, frame } => device.transmit(*message, frame.part_mut()),
            Call::Request { request, reply } => device.request(request.part(), reply.part_mut()),
            Call::Heartbeat { node } => device.heartbeat(*node),
            Call::Elapsed { milliseconds } => device.elapsed(*milliseconds),
        }
    }
}
