//! Document 01 and Items 1 to 3, 5 and 6 of document 02 line by line: a machine for each line and each channel,
//! which takes every call by itself, as the paper reads. Slow on purpose.

use crate::calls::{Answer, Cause, Machine, Message};
use crate::paper_machines::{AnalogueInput, AnalogueOutput, DigitalInput, DigitalOutput};
use crate::paper_mappings::{Direction, Mapping};
use crate::paper_node::{DeviceWide, Node, State};
use crate::paper_objects::{object, Object};
use crate::paper_watch::{node_is_taken, Watch};

#[derive(Clone)]
pub struct Device {
    pub node: Node,
    pub digital_inputs: [DigitalInput; 128],
    pub digital_outputs: [DigitalOutput; 128],
    pub analogue_inputs: [AnalogueInput; 16],
    pub analogue_outputs: [AnalogueOutput; 8],
    pub receive_mappings: [Mapping; 4],
    transmit_mappings: [Mapping; 4],
    pub watches: [Watch; 4],
}

impl Device {
    fn fresh(number: u8) -> Device {
        Device {
            node: Node::fresh(number),
            digital_inputs: [DigitalInput::fresh(number); 128],
            digital_outputs: [DigitalOutput::fresh(number); 128],
            analogue_inputs: [AnalogueInput::fresh(number); 16],
            analogue_outputs: [AnalogueOutput::fresh(number); 8],
            receive_mappings: [Mapping::empty(); 4],
            transmit_mappings: [Mapping::empty(); 4],
            watches: [Watch::empty(); 4],
        }
    }

    pub fn tell_every_machine(&mut self, news: DeviceWide) {
        self.node.take(news);
        if let DeviceWide::Command(129) = news {
            self.node = Node::fresh(self.node.number);
        }
        self.digital_inputs.iter_mut().for_each(|m| m.take(news));
        self.digital_outputs.iter_mut().for_each(|m| m.take(news));
        self.analogue_inputs.iter_mut().for_each(|m| m.take(news));
        self.analogue_outputs.iter_mut().for_each(|m| m.take(news));
        self.receive_mappings.iter_mut().for_each(|m| m.take(news));
        self.transmit_mappings.iter_mut().for_each(|m| m.take(news));
        self.watches.iter_mut().for_each(|m| m.take(news));
    }

    pub fn mapping(&mut self, direction: Direction, message: usize) -> &mut Mapping {
        match direction {
            Direction::Receive => &mut self.receive_mappings[message],
            Direction::Transmit => &mut self.transmit_mappings[message],
        }
    }

    fn refusal(&self, index: u16, sub: u8) -> Result<Object, u32> {
        if self.node.state == State::Stopped {
            return Err(0x0800_0022);
        }
        let object = object(index).ok_or(0x0602_0000u32)?;
        if sub > object.last_sub_index() {
            return Err(0x0609_0011);
        }
        Ok(object)
    }

    fn value_refusal(&mut self, object: Object, sub: u8, value: u32) -> Option<u32> {
        match object {
            Object::Mapping(direction, message) => {
                self.mapping(direction, message).value_refusal(direction, sub, value)
            }
            // "Two used entries for one node: 06040043, after the value check."
            Object::HeartbeatWatch => object.value_refusal(value).or_else(|| {
                let taken = node_is_taken(&self.watches, usize::from(sub) - 1, value);
                taken.then_some(0x0604_0043)
            }),
            _ => object.value_refusal(value),
        }
    }
}

impl Machine for Device {
    fn create(number: u8) -> (u32, Device) {
        if number == 0 || number > 127 {
            (1, Device::fresh(127))
        } else {
            (0, Device::fresh(number))
        }
    }

    fn read(&mut self, index: u16, sub: u8) -> Answer {
        match self.refusal(index, sub) {
            Err(number) => Answer::refused(number),
            Ok(object) => {
                Answer { size: object.size(sub), value: self.value(object, sub), ..Answer::default() }
            }
        }
    }

    fn write(&mut self, index: u16, sub: u8, data: &[u8]) -> Answer {
        let object = match self.refusal(index, sub) {
            Err(number) => return Answer::refused(number),
            Ok(object) => object,
        };
        if object.read_only(sub) {
            return Answer::refused(0x0601_0002);
        }
        let size = object.size(sub);
        if data.len() > size {
            return Answer::refused(0x0607_0012);
        }
        if data.len() < size {
            return Answer::refused(0x0607_0013);
        }
        let mut value = 0;
        for (place, byte) in data.iter().enumerate() {
            value |= u32::from(*byte) << (8 * place);
        }
        if let Some(number) = self.value_refusal(object, sub, value) {
            return Answer::refused(number);
        }
        self.store(object, sub, value);
        Answer::default()
    }

    fn sample(&mut self, digital: &[u8], analogue: &[i16], events: &mut [u8]) -> Answer {
        if digital.len() != 16 {
            return Answer::refused(3);
        }
        if analogue.len() != 16 {
            return Answer::refused(4);
        }
        if events.len() != 16 {
            return Answer::refused(5);
        }
        events.fill(0);
        for (line, machine) in self.digital_inputs.iter_mut().enumerate() {
            if machine.sample(digital[line / 8] >> (line % 8) & 1 == 1) {
                events[line / 8] |= 1 << (line % 8);
            }
        }
        let mut analogue_events = 0;
        for (channel, machine) in self.analogue_inputs.iter_mut().enumerate() {
            if machine.sample(analogue[channel]) {
                analogue_events |= 1 << channel;
            }
        }
        Answer { events: analogue_events, ..Answer::default() }
    }

    fn command(&mut self, code: u8, node: u8) -> Answer {
        if node > 127 {
            return Answer::refused(1);
        }
        if !matches!(code, 1 | 2 | 128 | 129 | 130) {
            return Answer::refused(2);
        }
        if node == 0 || node == self.node.number {
            self.tell_every_machine(DeviceWide::Command(code));
        }
        Answer::default()
    }

    fn raise(&mut self, cause: Cause) -> Answer {
        self.tell_every_machine(DeviceWide::Raise(cause));
        Answer::default()
    }

    fn clear(&mut self, cause: Cause) -> Answer {
        self.tell_every_machine(DeviceWide::Clear(cause));
        Answer::default()
    }

    fn drive(&mut self, lines: &mut [u8], channels: &mut [i16]) -> Answer {
        if lines.len() != 16 || channels.len() != 8 {
            return Answer::refused(6);
        }
        lines.fill(0);
        for (line, machine) in self.digital_outputs.iter().enumerate() {
            if machine.driven {
                lines[line / 8] |= 1 << (line % 8);
            }
        }
        for (channel, machine) in self.analogue_outputs.iter().enumerate() {
            channels[channel] = machine.driven;
        }
        Answer::default()
    }

    fn receive(&mut self, message: Message, frame: &[u8]) -> Answer {
        let mapping = *self.mapping(Direction::Receive, message as usize);
        if self.node.state != State::Operational || frame.len() < mapping.bytes() {
            return Answer::default();
        }
        let mut rest = frame;
        for entry in mapping.mapped().iter().filter(|entry| !entry.is_zero()) {
            let (data, after) = rest.split_at(entry.bytes());
            // No row refuses a mapped entry with its own size, and the node is operational.
            assert_eq!(self.write(entry.index, entry.sub, data), Answer::default());
            rest = after;
        }
        Answer::default()
    }

    fn transmit(&mut self, message: Message, frame: &mut [u8]) -> Answer {
        if frame.len() != 8 {
            return Answer::refused(5);
        }
        if self.node.state != State::Operational {
            return Answer::default();
        }
        let mapping = *self.mapping(Direction::Transmit, message as usize);
        let mut count = 0;
        let mut rest = frame;
        for entry in mapping.mapped().iter().filter(|entry| !entry.is_zero()) {
            let read = self.read(entry.index, entry.sub);
            let (written, after) = rest.split_at_mut(entry.bytes());
            written.copy_from_slice(&read.value.to_le_bytes()[..read.size]);
            count += read.size;
            rest = after;
        }
        Answer { count, ..Answer::default() }
    }

    fn request(&mut self, request: &[u8], reply: &mut [u8]) -> Answer {
        self.serve(request, reply)
    }

    fn heartbeat(&mut self, node: u8) -> Answer {
        self.watches.iter_mut().for_each(|watch| watch.heartbeat(node));
        Answer::default()
    }

    fn elapsed(&mut self, milliseconds: u32) -> Answer {
        let mut expired = false;
        for watch in &mut self.watches {
            expired |= watch.elapsed(milliseconds);
        }
        // "raises communication loss in that very call"; "The machines hear an expiry as a raise".
        if expired {
            self.tell_every_machine(DeviceWide::Raise(Cause::CommunicationLoss));
        }
        Answer::default()
    }
}
