//! What a call answers and how it is written: one line, with indented lines
//! below it where the answer is a list.

use std::fmt::{self, Display, Formatter};

use crate::{
    field::hex,
    leaves::Piece,
    refusal::Refusal,
    sender::{Acked, Loss, LossRun, Pushed, Ran, Reports, Sent},
    state::{PacingState, State, TimerState, TimersState},
};

#[derive(Clone, Debug, PartialEq, Eq)]
pub enum Answer {
    Done,
    /// The sender or leaf was refused when it was to be made.
    Nothing,
    Refused(Refusal),
    Pushed(Pushed),
    Acked(Acked),
    Runs(Vec<LossRun>),
    Ran(Ran),
    Reports(Reports),
    Payload(Vec<u8>),
    Sent(Vec<Sent>),
    State(Box<State>),
    Fired(Option<u32>),
    At(u64),
    Timer(TimerState),
    Timers(TimersState),
    Period(Option<u64>),
    Pacing(PacingState),
    Pieces(Vec<Piece>),
    Header([u8; 16]),
}

impl Answer {
    pub fn of<T>(result: Result<T, Refusal>, accepted: impl FnOnce(T) -> Answer) -> Answer {
        result.map_or_else(Answer::Refused, accepted)
    }

    /// Of a call that has nothing to tell.
    pub fn done(result: Result<(), Refusal>) -> Answer {
        Answer::of(result, |()| Answer::Done)
    }

    /// The refusal that is given for the call's arguments.
    pub fn refused(&self) -> Option<Refusal> {
        match self {
            Answer::Refused(refusal) if refusal.by_arguments() => Some(*refusal),
            _ => None,
        }
    }
}

/// A value that may be missing, then `-`.
struct Maybe<T>(Option<T>);

impl<T: Display> Display for Maybe<T> {
    fn fmt(&self, f: &mut Formatter) -> fmt::Result {
        match &self.0 {
            Some(value) => value.fmt(f),
            None => write!(f, "-"),
        }
    }
}

/// Bytes in groups of four, a record's last eight together.
fn grouped(bytes: &[u8]) -> String {
    let cut = if bytes.len() == 24 { 16 } else { bytes.len() };
    let mut groups: Vec<String> = bytes[..cut].chunks(4).map(hex).collect();
    if cut < bytes.len() {
        groups.push(hex(&bytes[cut..]));
    }
    groups.join(" ")
}

impl Display for Answer {
    fn fmt(&self, f: &mut Formatter) -> fmt::Result {
        match self {
            Answer::Done => write!(f, "done"),
            Answer::Nothing => write!(f, "nothing there"),
            Answer::Refused(refusal) => refusal.fmt(f),
            Answer::Pushed(pushed) => message(f, pushed),
            Answer::Acked(acked) => ack(f, acked),
            Answer::Runs(runs) => loss_runs(f, runs),
            Answer::Ran(ran) => records(f, ran),
            Answer::Reports(told) => reports(f, told),
            Answer::Payload(bytes) => write!(f, "payload {} {}", bytes.len(), hex(bytes)),
            Answer::Sent(sent) => packets(f, sent),
            Answer::State(state) => sender_state(f, state),
            Answer::Fired(periods) => write!(f, "fired {}", Maybe(*periods)),
            Answer::At(at) => write!(f, "at {at}"),
            Answer::Timer(timer) => write!(f, "origin {} period {}", timer.origin, timer.period),
            Answer::Timers(timers) => timers_state(f, timers),
            Answer::Period(period) => write!(f, "period {}", Maybe(*period)),
            Answer::Pacing(pacing) => pacing_state(f, pacing),
            Answer::Pieces(pieces) => {
                write!(f, "pieces {}", pieces.len())?;
                let mut all = pieces.iter();
                all.try_for_each(|p| write!(f, " {:02b}:{}", p.place, p.length))
            }
            Answer::Header(bytes) => write!(f, "header {}", grouped(bytes)),
        }
    }
}

fn message(f: &mut Formatter, a: &Pushed) -> fmt::Result {
    let period = Maybe(a.period);
    write!(f, "made {} removed {} bytes {} period {period}", a.made, a.removed, a.removed_bytes)
}

fn ack(f: &mut Formatter, a: &Acked) -> fmt::Result {
    let full = Maybe(a.full);
    write!(f, "received {} recovered {} full {full}", a.received, a.recovered)
}

fn records(f: &mut Formatter, ran: &Ran) -> fmt::Result {
    write!(f, "records {} left {}", ran.records.len(), ran.left)?;
    let mut all = ran.records.iter();
    all.try_for_each(|record| write!(f, "\n  {}", grouped(record)))
}

fn reports(f: &mut Formatter, r: &Reports) -> fmt::Result {
    let (flushed, to_send) = (u8::from(r.flushed), u8::from(r.has_packets_to_send));
    write!(f, "flushed {flushed} to_send {to_send} packets {} bytes {} time {}", r.packets, r.bytes, r.time)
}

fn packets(f: &mut Formatter, sent: &[Sent]) -> fmt::Result {
    write!(f, "sent {}", sent.len())?;
    let mut all = sent.iter();
    all.try_for_each(|s| write!(f, "\n  {} : {}", grouped(&s.header), hex(&s.payload)))
}

fn loss_runs(f: &mut Formatter, runs: &[LossRun]) -> fmt::Result {
    write!(f, "runs {}", runs.len())?;
    for run in runs {
        let kind = match run.loss {
            Loss::Added => "added",
            Loss::Ignored => "ignored",
            Loss::Dropped => "dropped",
        };
        write!(f, "\n  {kind} {} {}", run.first, run.end)?;
    }
    Ok(())
}

fn sender_state(f: &mut Formatter, state: &State) -> fmt::Result {
    write!(
        f,
        "state packets {} next_unsent {} next_number {} next_message {} rtt {} {} bytes {} \
         expected_full {} resend_entries {}",
        state.packets.len(),
        state.next_unsent,
        state.next_number,
        state.next_message,
        state.rtt.mean,
        state.rtt.variance,
        state.bytes,
        state.expected_full,
        state.resend_entries
    )?;
    for p in &state.packets {
        write!(
            f,
            "\n  packet {} time {} message {} place {:02b} length {} count {} due {} sum {:016x}",
            p.number,
            p.time,
            p.message,
            p.place,
            p.length,
            p.count,
            Maybe(p.due),
            p.sum
        )?;
    }
    write!(f, "\n  lost")?;
    for number in &state.lost {
        write!(f, " {number}")?;
    }
    write!(f, "\n  ")?;
    pacing_state(f, &state.pacing)
}

fn pacing_state(f: &mut Formatter, pacing: &PacingState) -> fmt::Result {
    write!(
        f,
        "pacing next {} packets {} bytes {} packet_rate {} {} byte_rate {} {}",
        Maybe(pacing.next),
        pacing.packets,
        pacing.bytes,
        pacing.packet_mean,
        pacing.packet_variance,
        pacing.byte_mean,
        pacing.byte_variance
    )
}

fn timers_state(f: &mut Formatter, timers: &TimersState) -> fmt::Result {
    write!(f, "timers exp_count {}", timers.exp_count)?;
    let all = [
        ("snd", timers.snd),
        ("ack", timers.full_ack),
        ("nak", timers.nak),
        ("exp", timers.exp),
        ("idle", timers.peer_idle),
        ("statistics", timers.statistics),
    ];
    let mut all = all.iter();
    all.try_for_each(|(name, timer)| write!(f, "\n  {name} origin {} period {}", timer.origin, timer.period))
}
