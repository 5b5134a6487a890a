//! The node as every machine carries it, and what goes to every machine alike.

use crate::calls::Cause;

#[derive(Clone, Copy, PartialEq)]
pub enum State {
    PreOperational,
    Operational,
    Stopped,
}

/// What every machine carries beside its own settings.
#[derive(Clone, Copy)]
pub struct Node {
    pub number: u8,
    pub state: State,
    pub internal_failure: bool,
    pub communication_loss: bool,
    /// 1029:1
    pub error_behaviour: u8,
    /// 6005:0
    pub digital_interrupts: bool,
    /// 6423:0
    pub analogue_interrupts: bool,
    /// 2003:0
    pub filter_length: u8,
}

/// What goes to every machine alike.
#[derive(Clone, Copy)]
pub enum DeviceWide {
    Command(u8),
    Raise(Cause),
    Clear(Cause),
    ErrorBehaviour(u8),
    DigitalInterrupts(bool),
    AnalogueInterrupts(bool),
    FilterLength(u8),
}

impl Node {
    pub fn fresh(number: u8) -> Node {
        Node {
            number,
            state: State::PreOperational,
            internal_failure: false,
            communication_loss: false,
            error_behaviour: 0,
            digital_interrupts: true,
            analogue_interrupts: false,
            filter_length: 3,
        }
    }

    pub fn in_fault(&self) -> bool {
        self.internal_failure || self.communication_loss || self.state == State::Stopped
    }

    pub fn raise(&mut self, cause: Cause) {
        match cause {
            Cause::InternalFailure => self.internal_failure = true,
            Cause::CommunicationLoss => {
                if !self.communication_loss {
                    self.communication_loss = true;
                    match self.error_behaviour {
                        0 if self.state == State::Operational => self.state = State::PreOperational,
                        2 => self.state = State::Stopped,
                        _ => {}
                    }
                }
            }
        }
    }

    pub fn clear(&mut self, cause: Cause) {
        match cause {
            Cause::InternalFailure => self.internal_failure = false,
            Cause::CommunicationLoss => self.communication_loss = false,
        }
    }

    /// A command that is meant for this node; true where the machine starts afresh.
    pub fn command(&mut self, code: u8) -> bool {
        match code {
            1 => self.state = State::Operational,
            2 => self.state = State::Stopped,
            128 => self.state = State::PreOperational,
            129 => return true,
            130 => {
                self.state = State::PreOperational;
                self.error_behaviour = 0;
                self.communication_loss = false;
            }
            _ => unreachable!(),
        }
        false
    }

    /// True where the machine starts afresh.
    pub fn take(&mut self, news: DeviceWide) -> bool {
        match news {
            DeviceWide::Command(code) => return self.command(code),
            DeviceWide::Raise(cause) => self.raise(cause),
            DeviceWide::Clear(cause) => self.clear(cause),
            DeviceWide::ErrorBehaviour(value) => self.error_behaviour = value,
            DeviceWide::DigitalInterrupts(on) => self.digital_interrupts = on,
            DeviceWide::AnalogueInterrupts(on) => self.analogue_interrupts = on,
            DeviceWide::FilterLength(length) => self.filter_length = length,
        }
        false
    }
}
