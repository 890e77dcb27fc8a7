//! The Rust sender as an answerer of scripts. Every call goes two ways, to the
//! parts of one sender directly and through the SenderContext of another; the
//! two ways must agree.

mod context;
mod leaves;
mod types;

use std::{
    cell::RefCell,
    time::{Duration, Instant},
};

use bytes::Bytes;
use calls::{Ack, Acked, LossRun, Pushed, Ran, Refusal, Reports, Run, Sent, Settings, State};

pub use leaves::LeavesJudge;

use crate::{
    action::{self, Action, FullTimes},
    packet::{CompressedLossList, DataPacket, SeqNumber},
    protocol::sender::Sender,
};
use context::Context;

pub struct Judge {
    start: Instant,
    direct: Sender,
    context: Context,
    times: FullTimes,
    /// What the last run sent.
    sent: Vec<DataPacket>,
    /// Flushed since the last message.
    flushed: Option<DataPacket>,
    agreed: u64,
    /// The books of the second sender, while they are compared.
    second: RefCell<State>,
}

impl Judge {
    /// The settings are in range.
    pub fn new(settings: &Settings) -> Self {
        let start = Instant::now();
        let connection = types::connection_settings(start, settings);
        Judge {
            start,
            direct: Sender::new(connection.clone()),
            context: Context::new(start, connection),
            times: FullTimes::default(),
            sent: Vec::new(),
            flushed: None,
            agreed: 0,
            second: RefCell::default(),
        }
    }

    fn at(&self, micros: u64) -> Instant {
        self.start + Duration::from_micros(micros)
    }
}

impl calls::Sender for Judge {
    fn message(&mut self, time: u64, now: u64, payload: &[u8]) -> Result<Pushed, Refusal> {
        let data = Bytes::from(payload);
        let (at_time, at_now) = (self.at(time), self.at(now));
        let number = self.context.next_number();
        let answer = self.direct.direct_message(at_time, at_now, data.clone());
        self.context.message(at_time, at_now, data, &answer);
        self.times.note(number, answer.made, time);
        self.flushed = None;
        self.agreed += 1;
        Ok(answer)
    }

    fn ack(&mut self, ack: &Ack) -> Result<Acked, Refusal> {
        let ack = types::acknowledgement(ack);
        let answer = self.direct.direct_ack(&ack);
        self.context.ack(self.start, ack, &answer);
        self.agreed += 1;
        answer
    }

    fn nak(&mut self, words: &[u32], _room: u64) -> Result<Vec<LossRun>, Refusal> {
        let list = CompressedLossList(words.to_vec());
        let answer = self.direct.direct_nak(list.clone());
        self.context.nak(self.start, list, &answer);
        self.agreed += 1;
        Ok(answer)
    }

    fn run(&mut self, run: &Run) -> Result<Ran, Refusal> {
        let now = self.at(run.now);
        let actions = self.direct.direct_run(now, run.budget, run.draining);
        self.context.run(now, run, &actions);
        self.agreed += 1;
        let records = actions.iter().map(|a| a.record(&self.times)).collect();
        self.sent = actions.into_iter().filter_map(Action::packet).collect();
        for packet in &self.sent {
            if self.direct.packet(packet.seq_number).is_none() {
                self.flushed = Some(packet.clone());
            }
        }
        Ok(Ran { records, left: run.budget.saturating_sub(self.sent.len() as u32) })
    }

    fn reports(&self) -> Reports {
        let reports = |sender: &Sender| Reports {
            flushed: sender.is_flushed(),
            has_packets_to_send: sender.has_packets_to_send(),
            packets: sender.tx_buffered_packets(),
            bytes: sender.tx_buffered_bytes(),
            time: sender.tx_buffered_time().as_micros() as u64,
        };
        let answer = reports(&self.direct);
        assert_eq!(answer, reports(&self.context.sender), "two ways: reports");
        answer
    }

    fn payload(&self, number: u32) -> Result<Vec<u8>, Refusal> {
        let flushed = self.flushed.as_ref().filter(|packet| packet.seq_number.as_raw() == number);
        self.direct
            .packet(SeqNumber::new_truncate(number))
            .or(flushed)
            .map(|packet| packet.payload.to_vec())
            .ok_or(Refusal::plain(calls::NOT_HELD))
    }

    fn sent(&self) -> Vec<Sent> {
        let sent = |packet: &DataPacket| Sent { header: action::header(packet), payload: packet.payload.to_vec() };
        self.sent.iter().map(sent).collect()
    }

    fn state(&self, out: &mut State) {
        self.direct.books(self.start, &self.times, out);
        let second = &mut *self.second.borrow_mut();
        self.context.sender.books(self.start, &self.times, second);
        assert!(out == second, "two ways: books");
    }

    fn preset_message(&mut self, number: u32) {
        self.direct.preset_message(number);
        self.context.sender.preset_message(number);
    }

    fn agreed(&self) -> u64 {
        self.agreed
    }
}
