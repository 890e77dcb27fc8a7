//! Reads and presets the private counters of the encapsulation, and splits a
//! message by it alone.

use bytes::Bytes;

use super::*;
use crate::protocol::sender::Sender;

impl Encapsulation {
    pub(crate) fn next_numbers(&self) -> (SeqNumber, MsgNumber) {
        (self.next_sequence_number, self.next_message_number)
    }

    pub(crate) fn preset_message(&mut self, number: u32) {
        self.next_message_number = MsgNumber::new_truncate(number);
    }
}

impl Sender {
    /// The packets of one message under these settings.
    pub(crate) fn split(settings: &ConnectionSettings, data: Bytes) -> Vec<DataPacket> {
        Encapsulation::new(settings).encapsulate(TimeStamp::from_micros(0), data).collect()
    }
}
