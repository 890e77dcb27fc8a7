//! Calls the parts of a sender directly, for the answers that SenderContext
//! keeps to itself, and reads their private books.

use std::time::Instant;

use bytes::Bytes;

use super::*;
use crate::{
    action::{Action, FullTimes},
    protocol::sender::Sender,
};

impl Sender {
    pub(crate) fn direct_message(&mut self, time: Instant, now: Instant, data: Bytes) -> calls::Pushed {
        let stamp = self.time_base.timestamp_from(time);
        let mut answer = calls::Pushed { made: 0, removed: 0, removed_bytes: 0, period: None };
        let mut bytes = 0;
        for packet in self.encapsulation.encapsulate(stamp, data) {
            answer.made += 1;
            bytes += packet.payload.len() as u64;
            if let Err((packets, wire_bytes)) = self.send_buffer.push_data(packet) {
                answer.removed += packets.0;
                answer.removed_bytes += wire_bytes.0;
            }
        }
        answer.period = self
            .congestion_control
            .on_input(now, PacketCount(answer.made), ByteCount(bytes))
            .map(|period| period.as_micros() as u64);
        answer
    }

    pub(crate) fn direct_ack(&mut self, ack: &Acknowledgement) -> Result<calls::Acked, calls::Refusal> {
        let answer =
            self.send_buffer.update_largest_acked_seq_number(ack.ack_number(), ack.full_ack_seq_number(), ack.rtt());
        match answer {
            Ok(action) => Ok(calls::Acked {
                received: action.received,
                recovered: action.recovered,
                full: action.send_ack2.map(|full| full.0 as u32),
            }),
            Err(AckError::SendBufferEmpty) => Err(calls::Refusal::plain(calls::EMPTY)),
            Err(AckError::InvalidAck { ack_number, first, next }) => {
                let values = [ack_number, first, next].map(|number| u64::from(number.as_raw()));
                Err(calls::Refusal::with(calls::INVALID_ACK, values))
            }
            Err(AckError::InvalidFullAck { received_full_ack, next_full_ack }) => {
                let values = [received_full_ack.0, next_full_ack.0, 0];
                Err(calls::Refusal::with(calls::STALE_FULL_ACK, values))
            }
        }
    }

    pub(crate) fn direct_nak(&mut self, nak: CompressedLossList) -> Vec<calls::LossRun> {
        self.send_buffer
            .add_to_loss_list(nak)
            .map(|(loss, range)| calls::LossRun {
                loss: match loss {
                    Loss::Added => calls::Loss::Added,
                    Loss::Ignored => calls::Loss::Ignored,
                    Loss::Dropped => calls::Loss::Dropped,
                },
                first: range.start.as_raw(),
                end: range.end.as_raw(),
            })
            .collect()
    }

    pub(crate) fn direct_run(&mut self, now: Instant, budget: u32, draining: bool) -> Vec<Action> {
        let stamp = self.time_base.timestamp_from(now);
        self.send_buffer
            .next_snd_actions(stamp, budget, draining)
            .map(|action| match action {
                SenderAction::Send(packet) => Action::Packet(1, packet),
                SenderAction::RetransmitRto(packet) => Action::Packet(2, packet),
                SenderAction::RetransmitNak(packet) => Action::Packet(3, packet),
                SenderAction::Drop(range) => Action::Drop(range),
                SenderAction::WaitForInput => Action::WaitForInput,
                SenderAction::WaitForAck { window_size, unacked_packets } => {
                    Action::WaitForAck { window_size, unacked_packets }
                }
            })
            .collect()
    }

    pub(crate) fn preset_message(&mut self, number: u32) {
        self.encapsulation.preset_message(number);
    }

    /// The buffered packet of that number.
    pub(crate) fn packet(&self, number: SeqNumber) -> Option<&DataPacket> {
        self.send_buffer.get(number).map(|entry| &entry.packet)
    }

    pub(crate) fn books(&self, start: Instant, times: &FullTimes, out: &mut calls::State) {
        self.send_buffer.books(times, out);
        let (number, message) = self.encapsulation.next_numbers();
        out.next_number = number.as_raw();
        out.next_message = message.as_raw();
        out.pacing = self.congestion_control.books(start);
    }
}

impl SendBuffer {
    fn due(&self, number: SeqNumber) -> Option<TimeStamp> {
        self.rto_queue.get_priority(&number).map(|Reverse((due, _))| *due)
    }

    fn books(&self, times: &FullTimes, out: &mut calls::State) {
        out.packets.clear();
        for entry in &self.buffer {
            let packet = &entry.packet;
            out.packets.push(calls::PacketState {
                number: packet.seq_number.as_raw(),
                time: times.of(packet),
                message: packet.message_number.as_raw(),
                place: packet.message_loc.bits(),
                length: packet.payload.len() as u32,
                count: entry.transmit_count as u32,
                due: self.due(packet.seq_number).map(TimeStamp::as_micros),
                sum: calls::payload_sum(&packet.payload),
            });
        }
        out.next_unsent = self.next_send.as_raw();
        out.lost.clear();
        out.lost.extend(self.lost_list.iter().map(|number| number.as_raw()));
        out.rtt =
            calls::Rtt { mean: self.rtt.mean().as_micros() as u32, variance: self.rtt.variance().as_micros() as u32 };
        out.bytes = self.buffer_len_bytes as u64;
        out.expected_full = self.next_full_ack.0;
        out.resend_entries = self.rto_queue.len() as u64;
    }
}
