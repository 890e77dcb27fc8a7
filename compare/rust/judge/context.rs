//! The second way through the Rust: a sender behind its own SenderContext. What
//! it gives out and counts is held against the answer of the direct way.

use std::time::{Duration, Instant};

use bytes::Bytes;
use calls::{Acked, Loss, LossRun, Pushed, Refusal, Run};

use crate::{
    action::Action,
    connection::{ConnectionSettings, ConnectionStatus},
    packet::{Acknowledgement, CompressedLossList, ControlTypes, DataPacket, SeqNumber},
    protocol::{
        output::Output,
        sender::{Sender, SenderContext},
        time::Timers,
    },
    statistics::SocketStatistics,
};

pub(super) struct Context {
    pub(super) sender: Sender,
    status: ConnectionStatus,
    timers: Timers,
    next_number: SeqNumber,
}

/// What one call through the context gave out and counted.
#[derive(Default)]
struct Seen {
    output: Output,
    stats: SocketStatistics,
}

impl Context {
    pub(super) fn new(start: Instant, settings: ConnectionSettings) -> Self {
        let second = Duration::from_secs(1);
        Context {
            next_number: settings.init_seq_num,
            sender: Sender::new(settings),
            status: ConnectionStatus::default(),
            timers: Timers::new(start, second, second),
        }
    }

    /// The number that the next packet gets.
    pub(super) fn next_number(&self) -> SeqNumber {
        self.next_number
    }

    fn with(&mut self, call: impl FnOnce(&mut SenderContext)) -> Seen {
        let mut seen = Seen::default();
        let mut context =
            SenderContext::new(&mut self.status, &mut self.timers, &mut seen.output, &mut seen.stats, &mut self.sender);
        call(&mut context);
        seen
    }

    pub(super) fn message(&mut self, time: Instant, now: Instant, data: Bytes, direct: &Pushed) {
        let before = self.timers.snd_period();
        let seen = self.with(|context| context.handle_data(now, (time, data)));
        self.next_number += direct.made as u32;
        let period = direct.period.map_or(before, Duration::from_micros);
        assert_eq!(self.timers.snd_period(), period, "two ways: period");
        let counts = (seen.stats.tx_dropped_data, seen.stats.tx_dropped_bytes);
        let answer = (direct.removed, direct.removed_bytes);
        assert_eq!(counts, answer, "two ways: removed");
    }

    pub(super) fn ack(&mut self, now: Instant, ack: Acknowledgement, direct: &Result<Acked, Refusal>) {
        let seen = self.with(|context| context.handle_ack_packet(now, ack.clone()));
        let answered = match direct {
            Ok(_) => ack.full_ack_seq_number().map(ControlTypes::Ack2),
            Err(_) => None,
        };
        let control: Vec<_> = answered.into_iter().collect();
        assert_eq!(seen.output.control, control, "two ways: ACKACK");
    }

    pub(super) fn nak(&mut self, now: Instant, list: CompressedLossList, direct: &[LossRun]) {
        let seen = self.with(|context| context.handle_nak_packet(now, list));
        let dropped: Vec<_> =
            direct.iter().filter(|run| run.loss == Loss::Dropped).map(|run| (run.first, run.end)).collect();
        let requests: Vec<_> = seen.output.control.iter().map(requested).collect();
        assert_eq!(requests, dropped, "two ways: drop requests");
        let counts = seen.stats.tx_loss_data + seen.stats.tx_dropped_data;
        assert_eq!(counts, direct.len() as u64, "two ways: loss runs");
    }

    pub(super) fn run(&mut self, now: Instant, run: &Run, direct: &[Action]) {
        self.status.draining = run.draining;
        let seen = self.with(|context| context.on_snd_event(now, run.budget));
        let packets: Vec<&DataPacket> = direct
            .iter()
            .filter_map(|action| match action {
                Action::Packet(_, packet) => Some(packet),
                _ => None,
            })
            .collect();
        let sent: Vec<&DataPacket> = seen.output.data.iter().collect();
        assert_eq!(sent, packets, "two ways: packets");
        let counts = seen.stats.tx_unique_data + seen.stats.tx_retransmit_data;
        assert_eq!(counts, packets.len() as u64, "two ways: sends");
    }
}

fn requested(control: &ControlTypes) -> (u32, u32) {
    match control {
        ControlTypes::DropRequest { range, .. } => (range.start.as_raw(), range.end.as_raw()),
        other => panic!("two ways: {other:?} answers a loss report"),
    }
}
