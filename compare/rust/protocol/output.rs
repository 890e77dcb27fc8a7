//! Stands in for the connection's output: collects what the sender gives out.

use std::time::Instant;

use crate::packet::{ControlTypes, DataPacket};

#[derive(Debug, Default)]
pub struct Output {
    pub data: Vec<DataPacket>,
    pub control: Vec<ControlTypes>,
}

impl Output {
    pub fn send_data(&mut self, _now: Instant, packet: DataPacket) {
        self.data.push(packet);
    }

    pub fn send_control(&mut self, _now: Instant, control: ControlTypes) {
        self.control.push(control);
    }
}
