//! The traits of whoever answers.

use crate::{
    answer::Answer,
    call::{LeafCall, SenderCall},
    refusal::Refusal,
    sender::{Ack, Acked, LossRun, Pushed, Ran, Reports, Run, Sent},
    state::State,
};

/// A sender, started by its maker with `Settings`.
pub trait Sender {
    fn message(&mut self, time: u64, now: u64, payload: &[u8]) -> Result<Pushed, Refusal>;
    fn ack(&mut self, ack: &Ack) -> Result<Acked, Refusal>;
    /// `room` is the number of runs that the lent answer list can take.
    fn nak(&mut self, words: &[u32], room: u64) -> Result<Vec<LossRun>, Refusal>;
    fn run(&mut self, run: &Run) -> Result<Ran, Refusal>;
    fn reports(&self) -> Reports;
    /// The payload of a packet that is buffered, or flushed since the last
    /// accepted message.
    fn payload(&self, number: u32) -> Result<Vec<u8>, Refusal>;
    /// What the last accepted run sent, in its order.
    fn sent(&self) -> Vec<Sent>;
    /// The books. `out` is overwritten.
    fn state(&self, out: &mut State);
    /// Not a call of the sender: sets the message counter, so that its wrap
    /// can be reached.
    fn preset_message(&mut self, number: u32);
    /// How often two ways through the same sender were found to agree, where
    /// there are two.
    fn agreed(&self) -> u64 {
        0
    }
}

/// One call of a sender that is there.
pub fn call_sender(sender: &mut dyn Sender, call: &SenderCall) -> Answer {
    match call {
        SenderCall::New { .. } => Answer::Nothing,
        SenderCall::PresetMessage { number } => {
            sender.preset_message(*number);
            Answer::Done
        }
        SenderCall::Message { time, now, payload } => {
            let bytes = payload.bytes();
            Answer::of(sender.message(*time, *now, &bytes), Answer::Pushed)
        }
        SenderCall::Ack { ack } => Answer::of(sender.ack(ack), Answer::Acked),
        SenderCall::Nak { report } => Answer::of(sender.nak(&report.words, report.room), Answer::Runs),
        SenderCall::Run { run } => Answer::of(sender.run(run), Answer::Ran),
        SenderCall::Reports {} => Answer::Reports(sender.reports()),
        SenderCall::Payload { number } => Answer::of(sender.payload(*number), Answer::Payload),
        SenderCall::Sent {} => Answer::Sent(sender.sent()),
        SenderCall::State {} => {
            let mut state = State::default();
            sender.state(&mut state);
            Answer::State(Box::new(state))
        }
    }
}

/// The leaves that a script has made so far.
pub trait Leaves {
    /// One call; `Nothing` where it speaks of a leaf that isn't there.
    fn call(&mut self, call: &LeafCall) -> Answer;
}
