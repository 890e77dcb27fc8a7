//! The sender's arguments and answers.

/// How the allowed rate is found (document 01, Pacing). Rates are bytes per
/// second, overheads percent.
#[derive(Clone, Copy, Debug, PartialEq, Eq)]
pub enum Mode {
    Input { rate: u64, overhead: u64 },
    Max(u64),
    Unlimited,
    Estimated { expected: u64, overhead: u64 },
}

impl Mode {
    /// Number, rate and overhead, as include/phelgomrit.h has them.
    pub fn numbers(self) -> (u32, u64, u64) {
        match self {
            Mode::Input { rate, overhead } => (0, rate, overhead),
            Mode::Estimated { expected, overhead } => (1, expected, overhead),
            Mode::Max(rate) => (2, rate, 0),
            Mode::Unlimited => (3, 0, 0),
        }
    }

    pub fn of(mode: u32, rate: u64, overhead: u64) -> Option<Mode> {
        let expected = rate;
        match (mode, rate, overhead) {
            (0, ..) => Some(Mode::Input { rate, overhead }),
            (1, ..) => Some(Mode::Estimated { expected, overhead }),
            (2, _, 0) => Some(Mode::Max(rate)),
            (3, 0, 0) => Some(Mode::Unlimited),
            _ => None,
        }
    }
}

#[derive(Clone, Copy, Debug, PartialEq, Eq)]
pub struct Settings {
    pub first: u32,
    pub size: u32,
    pub buffer: u32,
    pub window: u32,
    pub latency: u64,
    pub overhead: u32,
    pub id: u32,
    pub mode: Mode,
}

impl Default for Settings {
    fn default() -> Self {
        Settings {
            first: 0,
            size: 1_456,
            buffer: 8_192,
            window: 8_192,
            latency: 120_000,
            overhead: 0,
            id: 0,
            mode: Mode::Unlimited,
        }
    }
}

#[derive(Clone, Copy, Debug, Default, PartialEq, Eq)]
pub struct Rtt {
    pub mean: u32,
    pub variance: u32,
}

#[derive(Clone, Copy, Debug, PartialEq, Eq)]
pub struct Ack {
    pub number: u32,
    pub full: Option<u32>,
    pub rtt: Option<Rtt>,
}

/// The payload of so many bytes that a seed stands for.
pub fn seeded(length: u32, seed: u32) -> Vec<u8> {
    let byte = |i: u64| (u64::from(seed) + 131 * i + i / 251) as u8;
    (0..u64::from(length)).map(byte).collect()
}

/// A payload, written out or by length and seed.
#[derive(Clone, Debug, PartialEq, Eq)]
pub enum Payload {
    Seeded { length: u32, seed: u32 },
    Given(Vec<u8>),
}

impl Payload {
    pub fn length(&self) -> usize {
        match self {
            Payload::Seeded { length, .. } => *length as usize,
            Payload::Given(bytes) => bytes.len(),
        }
    }

    pub fn bytes(&self) -> Vec<u8> {
        match self {
            Payload::Seeded { length, seed } => seeded(*length, *seed),
            Payload::Given(bytes) => bytes.clone(),
        }
    }
}

/// Room of a list lent for an answer: ample where a script doesn't say it.
pub const AMPLE: u64 = 1 << 40;
/// A loss report's words, and how many runs its answer list can take.
#[derive(Clone, Debug, PartialEq, Eq)]
pub struct Report {
    pub words: Vec<u32>,
    pub room: u64,
}

/// What a run is called with.
#[derive(Clone, Copy, Debug, PartialEq, Eq)]
pub struct Run {
    pub now: u64,
    pub budget: u32,
    pub draining: bool,
    /// Records that the lent answer list can take.
    pub room: u64,
}

/// Answer of `message`.
#[derive(Clone, Copy, Debug, PartialEq, Eq)]
pub struct Pushed {
    pub made: u64,
    pub removed: u64,
    pub removed_bytes: u64,
    /// The new sending period in microseconds, where one was made.
    pub period: Option<u64>,
}

/// Answer of `ack`.
#[derive(Clone, Copy, Debug, PartialEq, Eq)]
pub struct Acked {
    pub received: u64,
    pub recovered: u64,
    pub full: Option<u32>,
}

#[derive(Clone, Copy, Debug, PartialEq, Eq)]
pub enum Loss {
    Added,
    Ignored,
    Dropped,
}

/// One run of a loss report's answer; `end` is exclusive.
#[derive(Clone, Copy, Debug, PartialEq, Eq)]
pub struct LossRun {
    pub loss: Loss,
    pub first: u32,
    pub end: u32,
}

impl LossRun {
    /// A run from its three words in a lent list.
    pub fn read(words: &[u32]) -> LossRun {
        LossRun {
            loss: match words[0] {
                1 => Loss::Added,
                2 => Loss::Ignored,
                3 => Loss::Dropped,
                other => panic!("there is no kind of loss {other}"),
            },
            first: words[1],
            end: words[2],
        }
    }
}

/// One action record of document 01.
pub type Record = [u8; 24];

/// Four bytes of a record, the lowest first.
pub fn word(record: &Record, at: usize) -> u32 {
    u32::from_le_bytes([record[at], record[at + 1], record[at + 2], record[at + 3]])
}

/// Answer of `run`: the records, and the budget less the sends.
#[derive(Clone, Debug, PartialEq, Eq)]
pub struct Ran {
    pub records: Vec<Record>,
    pub left: u32,
}

/// What went out for one send record.
#[derive(Clone, Debug, PartialEq, Eq)]
pub struct Sent {
    pub header: [u8; 16],
    pub payload: Vec<u8>,
}

#[derive(Clone, Copy, Debug, PartialEq, Eq)]
pub struct Reports {
    pub flushed: bool,
    pub has_packets_to_send: bool,
    pub packets: u64,
    pub bytes: u64,
    /// Microseconds.
    pub time: u64,
}
