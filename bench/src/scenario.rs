//! What is measured: for each operation and size a call file, of calls that lead
//! up to it and calls that are timed. It is made once and played on both.

use std::fmt::{self, Display, Formatter, Write};

use calls::{seeded, Ack, Mode, Rtt, Settings};

/// Packets buffered.
pub const SIZES: [u32; 3] = [32, 512, 8_192];
/// One packet in so many is lost.
const LOST_ONE_IN: u32 = 10;
/// Packets of a run, where it may send so many.
const BUDGET: u32 = 16;
/// Words of a loss report at most.
const WORDS: usize = 512;
/// Messages into a full buffer at most.
const MESSAGES: u32 = 1_024;
/// Bytes of a packet's payload.
const PAYLOAD: u32 = 1_456;
/// The first number: one past a number that divides by 16, so that a run sends
/// exactly its budget.
const FIRST: u32 = 1_000_001;
/// When the runs of the first sendings begin, in microseconds.
const SENDING: u64 = 1_000_000;
/// When all that was sent is overdue.
const OVERDUE: u64 = 5_000_000;

#[derive(Clone, Copy, PartialEq, Eq)]
pub enum Operation {
    LossReports,
    ResendsByLoss,
    ResendsByTime,
    FirstSendings,
    FullBuffer,
    AckOfAll,
}

impl Operation {
    pub const ALL: [Operation; 6] = [
        Operation::LossReports,
        Operation::ResendsByLoss,
        Operation::ResendsByTime,
        Operation::FirstSendings,
        Operation::FullBuffer,
        Operation::AckOfAll,
    ];

    pub fn name(self) -> &'static str {
        match self {
            Operation::LossReports => "loss reports",
            Operation::ResendsByLoss => "resends by loss",
            Operation::ResendsByTime => "resends by time, all overdue",
            Operation::FirstSendings => "first sendings",
            Operation::FullBuffer => "messages into a full buffer",
            Operation::AckOfAll => "ACK of all",
        }
    }
}

pub enum Call {
    /// A message of one packet, brought at its time; the payload's bytes by seed.
    Message {
        time: u64,
        seed: u32,
    },
    Ack(Ack),
    Nak(Vec<u32>),
    Run {
        now: u64,
        budget: u32,
    },
}

impl Call {
    pub fn payload(seed: u32) -> Vec<u8> {
        seeded(PAYLOAD, seed)
    }
}

/// As docs/SCRIPTS.md writes it.
impl Display for Call {
    fn fmt(&self, f: &mut Formatter<'_>) -> fmt::Result {
        match self {
            Call::Message { time, seed } => write!(f, "message {time} {time} {PAYLOAD} {seed}"),
            Call::Ack(ack) => ack.fmt(f),
            Call::Nak(words) => {
                f.write_str("nak")?;
                words.iter().try_for_each(|word| write!(f, " {word}"))
            }
            Call::Run { now, budget } => write!(f, "run {now} {budget}"),
        }
    }
}

pub struct Scenario {
    pub operation: Operation,
    pub packets: u32,
    pub settings: Settings,
    /// Leads up to what is measured.
    pub before: Vec<Call>,
    pub timed: Vec<Call>,
    /// Packets that the timed calls report, send, push or acknowledge.
    pub units: u32,
}

impl Scenario {
    pub fn new(operation: Operation, packets: u32) -> Scenario {
        use Operation::*;
        let lost = packets / LOST_ONE_IN;
        let (before, timed, units) = match operation {
            FirstSendings => (filled(packets), sent(packets), packets),
            LossReports => (all_sent(packets), reports(packets), lost),
            ResendsByLoss => (some_lost(packets), resent(lost), lost),
            ResendsByTime => (some_resent(packets), overdue(packets), packets),
            FullBuffer => {
                let more = packets.min(MESSAGES);
                (some_lost(packets), messages(packets, more), more)
            }
            AckOfAll => (some_lost(packets), vec![ack(packets)], packets),
        };
        Scenario {
            operation,
            packets,
            settings: settings(packets),
            before,
            timed,
            units,
        }
    }

    /// The call file's name.
    pub fn file(&self) -> String {
        let words: Vec<&str> = self
            .operation
            .name()
            .split([' ', ','])
            .filter(|w| !w.is_empty())
            .collect();
        format!("{}-{}.script", words.join("-"), self.packets)
    }

    /// The call file, as `compare/run script` reads it.
    pub fn script(&self) -> String {
        let s = &self.settings;
        let mut text = format!(
            "new first={} size={} buffer={} window={} latency={} overhead={} id={}\n",
            s.first, s.size, s.buffer, s.window, s.latency, s.overhead, s.id
        );
        for call in &self.before {
            let _ = writeln!(text, "{call}");
        }
        text.push_str("# timed from here on\n");
        for call in &self.timed {
            let _ = writeln!(text, "{call}");
        }
        text
    }
}

fn settings(packets: u32) -> Settings {
    Settings {
        first: FIRST,
        size: PAYLOAD,
        buffer: packets,
        window: 65_535,
        latency: 60_000_000,
        overhead: 44,
        id: 7,
        mode: Mode::Unlimited,
    }
}

/// So many messages of one packet, after `before` others.
fn messages(before: u32, count: u32) -> Vec<Call> {
    let message = |k: u32| Call::Message {
        time: 1_000 + u64::from(k) * 10,
        seed: k,
    };
    (before..before + count).map(message).collect()
}

fn filled(packets: u32) -> Vec<Call> {
    messages(0, packets)
}

/// Runs that send so many, from `start` on.
fn runs(start: u64, packets: u32) -> Vec<Call> {
    let full = u64::from(packets / BUDGET);
    let rest = packets % BUDGET;
    let run = |k: u64, budget: u32| Call::Run {
        now: start + k * 10,
        budget,
    };
    let last = (rest > 0).then(|| run(full, rest));
    (0..full).map(|k| run(k, BUDGET)).chain(last).collect()
}

fn sent(packets: u32) -> Vec<Call> {
    runs(SENDING, packets)
}

fn all_sent(packets: u32) -> Vec<Call> {
    let mut calls = filled(packets);
    calls.extend(sent(packets));
    calls
}

/// Every tenth packet reported, nearest the front first, as a receiver does.
fn reports(packets: u32) -> Vec<Call> {
    let lost: Vec<u32> = (0..packets / LOST_ONE_IN)
        .map(|k| FIRST + k * LOST_ONE_IN + 5)
        .collect();
    lost.chunks(WORDS)
        .map(|words| Call::Nak(words.to_vec()))
        .collect()
}

fn some_lost(packets: u32) -> Vec<Call> {
    let mut calls = all_sent(packets);
    calls.extend(reports(packets));
    calls
}

/// Runs that resend what is on the loss list, before anything is overdue.
fn resent(lost: u32) -> Vec<Call> {
    runs(SENDING + 100_000, lost)
}

fn some_resent(packets: u32) -> Vec<Call> {
    let mut calls = some_lost(packets);
    calls.extend(resent(packets / LOST_ONE_IN));
    calls
}

fn overdue(packets: u32) -> Vec<Call> {
    runs(OVERDUE, packets)
}

fn ack(packets: u32) -> Call {
    let rtt = Rtt {
        mean: 90_000,
        variance: 10_000,
    };
    Call::Ack(Ack {
        number: FIRST + packets,
        full: Some(1),
        rtt: Some(rtt),
    })
}
