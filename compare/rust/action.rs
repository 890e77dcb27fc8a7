//! Actions of a run as the 24-byte records of document 01, packets as their
//! 16-byte headers, and the full times that the Rust doesn't keep.

use std::{collections::VecDeque, ops::Range, time::Instant};

use calls::Record;

use crate::packet::{DataPacket, SeqNumber};

#[derive(Debug)]
pub(crate) enum Action {
    /// A packet that goes out, with the record's kind.
    Packet(u8, DataPacket),
    Drop(Range<SeqNumber>),
    WaitForInput,
    WaitForAck {
        window_size: u32,
        unacked_packets: u32,
    },
}

impl Action {
    pub(crate) fn packet(self) -> Option<DataPacket> {
        match self {
            Action::Packet(_, packet) => Some(packet),
            _ => None,
        }
    }

    pub(crate) fn record(&self, times: &FullTimes) -> Record {
        let mut record = [0; 24];
        match self {
            Action::Packet(kind, packet) => {
                record[0] = *kind;
                record[1] = packet.message_loc.bits() << 6 | u8::from(packet.retransmitted);
                record[2..4].copy_from_slice(&(packet.payload.len() as u16).to_le_bytes());
                put(&mut record, 4, packet.seq_number.as_raw());
                put(&mut record, 8, packet.message_number.as_raw());
                put(&mut record, 12, packet.timestamp.as_micros());
                record[16..24].copy_from_slice(&times.of(packet).to_le_bytes());
            }
            Action::Drop(range) => {
                record[0] = 4;
                put(&mut record, 4, range.start.as_raw());
                put(&mut record, 8, range.end.as_raw());
            }
            Action::WaitForInput => record[0] = 5,
            Action::WaitForAck { window_size, unacked_packets } => {
                record[0] = 6;
                put(&mut record, 8, *unacked_packets);
                put(&mut record, 12, *window_size);
            }
        }
        record
    }
}

fn put(record: &mut Record, at: usize, word: u32) {
    record[at..at + 4].copy_from_slice(&word.to_le_bytes());
}

/// The header of a packet (document 01, Header): the Rust's own serializer
/// isn't among the files.
pub(crate) fn header(packet: &DataPacket) -> [u8; 16] {
    let second = u32::from(packet.message_loc.bits()) << 30
        | u32::from(packet.in_order_delivery) << 29
        | u32::from(packet.retransmitted) << 26
        | packet.message_number.as_raw();
    let words = [packet.seq_number.as_raw(), second, packet.timestamp.as_micros(), packet.dest_sockid.id];
    let mut header = [0; 16];
    for (bytes, word) in header.chunks_mut(4).zip(words) {
        bytes.copy_from_slice(&word.to_be_bytes());
    }
    header
}

/// The full time of each of the last packets pushed; numbers are consecutive.
#[derive(Default)]
pub(crate) struct FullTimes {
    first: Option<SeqNumber>,
    times: VecDeque<u64>,
}

impl FullTimes {
    /// The largest buffer.
    const KEPT: usize = 8_192;

    /// Notes `count` packets from `number` on, all of this time.
    pub(crate) fn note(&mut self, number: SeqNumber, count: u64, time: u64) {
        let first = self.first.get_or_insert(number);
        for _ in 0..count {
            self.times.push_back(time);
            if self.times.len() > Self::KEPT {
                self.times.pop_front();
                *first += 1;
            }
        }
    }

    pub(crate) fn of(&self, packet: &DataPacket) -> u64 {
        let first = self.first.expect("a packet was pushed");
        let time = self.times[(packet.seq_number - first) as usize];
        assert_eq!(time as u32, packet.timestamp.as_micros(), "stamp and time");
        time
    }
}

/// Pacing by itself: its type is private to the sender.
pub(crate) trait Paced {
    fn input(&mut self, now: Instant, packets: u64, bytes: u64) -> Option<u64>;
    fn state(&self, start: Instant) -> calls::PacingState;
}
