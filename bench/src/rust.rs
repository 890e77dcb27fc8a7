//! The Rust, called as its own connection calls it: through SenderContext.

use std::time::{Duration, Instant};

use bytes::Bytes;
use calls::{Reports, Settings};
use phel_repaired::{
    connection::{ConnectionSettings, ConnectionStatus},
    options::{LiveBandwidthMode, PacketCount, PacketSize},
    packet::{Acknowledgement, CompressedLossList, FullAckSeqNumber, SeqNumber, SocketId},
    protocol::{
        output::Output,
        sender::{Sender, SenderContext},
        time::{Rtt, Timers},
    },
    statistics::SocketStatistics,
};

use crate::scenario::Call;

/// A call with all that it takes over.
pub enum Prepared {
    Message(Instant, Bytes),
    Ack(Acknowledgement),
    Nak(CompressedLossList),
    Run(Instant, u32),
}

pub struct Rust {
    start: Instant,
    sender: Sender,
    status: ConnectionStatus,
    timers: Timers,
    output: Output,
    stats: SocketStatistics,
}

impl Rust {
    pub fn new(settings: &Settings) -> Rust {
        let start = Instant::now();
        let second = Duration::from_secs(1);
        Rust {
            start,
            sender: Sender::new(connection(start, settings)),
            status: ConnectionStatus::default(),
            timers: Timers::new(start, second, second),
            output: Output::default(),
            stats: SocketStatistics::default(),
        }
    }

    pub fn prepare(&self, call: &Call) -> Prepared {
        let at = |micros: u64| self.start + Duration::from_micros(micros);
        match call {
            Call::Message { time, seed } => {
                Prepared::Message(at(*time), Bytes::from(&Call::payload(*seed)[..]))
            }
            Call::Ack(ack) => Prepared::Ack(Acknowledgement::Other {
                ack_number: SeqNumber::new_truncate(ack.number),
                rtt: ack.rtt.map(|rtt| Rtt::new(rtt.mean, rtt.variance)),
                full_ack: ack.full.map(|full| FullAckSeqNumber(u64::from(full))),
            }),
            Call::Nak(words) => Prepared::Nak(CompressedLossList(words.clone())),
            Call::Run { now, budget } => Prepared::Run(at(*now), *budget),
        }
    }

    fn call(&mut self, call: Prepared) {
        let mut context = SenderContext::new(
            &mut self.status,
            &mut self.timers,
            &mut self.output,
            &mut self.stats,
            &mut self.sender,
        );
        match call {
            Prepared::Message(time, data) => context.handle_data(time, (time, data)),
            Prepared::Ack(ack) => context.handle_ack_packet(self.start, ack),
            Prepared::Nak(list) => context.handle_nak_packet(self.start, list),
            Prepared::Run(now, budget) => context.on_snd_event(now, budget),
        }
    }

    /// What goes out is taken away outside the measurement.
    fn empty(&mut self) {
        self.output.data.clear();
        self.output.control.clear();
    }

    pub fn lead_up(&mut self, calls: &[Call]) {
        for call in calls {
            let prepared = self.prepare(call);
            self.call(prepared);
            self.empty();
        }
    }

    /// How long each call took, one after another.
    pub fn time(&mut self, calls: Vec<Prepared>) -> Vec<Duration> {
        let timed = |call: Prepared| {
            let start = Instant::now();
            self.call(call);
            let time = start.elapsed();
            self.empty();
            time
        };
        calls.into_iter().map(timed).collect()
    }

    pub fn reports(&self) -> Reports {
        Reports {
            flushed: self.sender.is_flushed(),
            has_packets_to_send: self.sender.has_packets_to_send(),
            packets: self.sender.tx_buffered_packets(),
            bytes: self.sender.tx_buffered_bytes(),
            time: self.sender.tx_buffered_time().as_micros() as u64,
        }
    }
}

fn connection(start: Instant, s: &Settings) -> ConnectionSettings {
    ConnectionSettings {
        socket_start_time: start,
        remote_sockid: SocketId {
            id: s.id,
            wire_overhead: s.overhead,
        },
        init_seq_num: SeqNumber::new_truncate(s.first),
        max_packet_size: PacketSize(u64::from(s.size)),
        max_flow_size: PacketCount(u64::from(s.window)),
        send_buffer_size: PacketCount(u64::from(s.buffer)),
        send_tsbpd_latency: Duration::from_micros(s.latency),
        cipher: None,
        bandwidth: LiveBandwidthMode::Unlimited,
    }
}
