//! What the entries of the object dictionary read, and where a write of them goes.

use crate::paper::Device;
use crate::paper_node::DeviceWide;
use crate::paper_objects::{Attribute, Object};

impl Device {
    fn line_bit(&self, attribute: Attribute, line: usize) -> bool {
        let i = &self.digital_inputs[line];
        let o = &self.digital_outputs[line];
        match attribute {
            Attribute::Input => i.reads(),
            Attribute::InputPolarity => i.polarity,
            Attribute::InputFilter => i.filter,
            Attribute::AnyChange => i.any_change,
            Attribute::LowToHigh => i.low_to_high,
            Attribute::HighToLow => i.high_to_low,
            Attribute::Output => o.kept,
            Attribute::OutputPolarity => o.polarity,
            Attribute::ErrorMode => o.error_mode,
            Attribute::ErrorValue => o.error_value,
            Attribute::OutputFilterMask => o.filter_mask,
        }
    }

    fn set_line_bit(&mut self, attribute: Attribute, line: usize, w: bool) {
        let i = &mut self.digital_inputs[line];
        let o = &mut self.digital_outputs[line];
        match attribute {
            Attribute::Input => unreachable!(),
            Attribute::InputPolarity => i.polarity = w,
            Attribute::InputFilter => i.filter = w,
            Attribute::AnyChange => i.any_change = w,
            Attribute::LowToHigh => i.low_to_high = w,
            Attribute::HighToLow => i.high_to_low = w,
            Attribute::Output => {
                if o.filter_mask {
                    o.kept = w;
                }
            }
            Attribute::OutputPolarity => o.polarity = w,
            Attribute::ErrorMode => o.error_mode = w,
            Attribute::ErrorValue => o.error_value = w,
            Attribute::OutputFilterMask => o.filter_mask = w,
        }
        o.follow();
    }

    pub fn value(&mut self, object: Object, sub: u8) -> u32 {
        if let (Some(count), 0) = (object.entries(), sub) {
            return u32::from(count);
        }
        match object {
            Object::Lines(attribute, width) => {
                let mut value = 0;
                for b in 0..width {
                    // Line w(s - 1) + b + 1 stands at one less.
                    if self.line_bit(attribute, width * (usize::from(sub) - 1) + b) {
                        value |= 1 << b;
                    }
                }
                value
            }
            Object::DeviceType => 0x000F_0191,
            Object::ErrorRegister => {
                let any = self.node.internal_failure || self.node.communication_loss;
                u32::from(any) | u32::from(self.node.communication_loss) << 4
            }
            Object::ErrorBehaviour => u32::from(self.node.error_behaviour),
            Object::DigitalInterrupts => u32::from(self.node.digital_interrupts),
            Object::AnalogueInterrupts => u32::from(self.node.analogue_interrupts),
            Object::FilterLength => u32::from(self.node.filter_length),
            Object::InterruptSource => {
                let mut value = 0;
                for (n, machine) in self.analogue_inputs.iter_mut().enumerate() {
                    value |= u32::from(machine.source) << n;
                    machine.source = false;
                }
                value
            }
            Object::InputChannel(index) => self.input_value(index, usize::from(sub) - 1),
            Object::OutputChannel(index) => self.output_value(index, usize::from(sub) - 1),
            Object::Mapping(direction, message) => self.mapping(direction, message).value(sub),
            Object::HeartbeatWatch => self.watches[usize::from(sub) - 1].value,
        }
    }

    fn input_value(&self, index: u16, channel: usize) -> u32 {
        let machine = &self.analogue_inputs[channel];
        match index {
            0x6401 => u32::from(machine.last as u16),
            0x6421 => u32::from(machine.selection),
            0x6424 => machine.upper as u32,
            0x6425 => machine.lower as u32,
            0x6426 => machine.delta,
            0x6427 => machine.negative_delta,
            0x6428 => machine.positive_delta,
            _ => unreachable!(),
        }
    }

    fn output_value(&self, index: u16, channel: usize) -> u32 {
        let machine = &self.analogue_outputs[channel];
        match index {
            0x6411 => u32::from(machine.kept as u16),
            0x6443 => u32::from(machine.error_mode),
            0x6444 => i32::from(machine.error_value) as u32,
            _ => unreachable!(),
        }
    }

    pub fn store(&mut self, object: Object, sub: u8, value: u32) {
        match object {
            Object::Lines(attribute, width) => {
                for b in 0..width {
                    let line = width * (usize::from(sub) - 1) + b;
                    self.set_line_bit(attribute, line, value >> b & 1 == 1);
                }
            }
            Object::ErrorBehaviour => self.tell_every_machine(DeviceWide::ErrorBehaviour(value as u8)),
            Object::DigitalInterrupts => self.tell_every_machine(DeviceWide::DigitalInterrupts(value == 1)),
            Object::AnalogueInterrupts => self.tell_every_machine(DeviceWide::AnalogueInterrupts(value == 1)),
            Object::FilterLength => self.tell_every_machine(DeviceWide::FilterLength(value as u8)),
            Object::InputChannel(index) => {
                let machine = &mut self.analogue_inputs[usize::from(sub) - 1];
                match index {
                    0x6421 => machine.selection = value as u8,
                    0x6424 => machine.upper = value as i32,
                    0x6425 => machine.lower = value as i32,
                    0x6426 => machine.delta = value,
                    0x6427 => machine.negative_delta = value,
                    0x6428 => machine.positive_delta = value,
                    _ => unreachable!(),
                }
            }
            Object::OutputChannel(index) => {
                let machine = &mut self.analogue_outputs[usize::from(sub) - 1];
                match index {
                    0x6411 => machine.kept = value as u16 as i16,
                    0x6443 => machine.error_mode = value == 1,
                    0x6444 => machine.error_value = value as i32 as i16,
                    _ => unreachable!(),
                }
                machine.follow();
            }
            Object::Mapping(direction, message) => self.mapping(direction, message).store(sub, value),
            Object::HeartbeatWatch => self.watches[usize::from(sub) - 1].store(value),
            _ => unreachable!(),
        }
    }
}
