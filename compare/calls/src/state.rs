//! The books of a sender, of its pacing and of its timers, as they are
//! compared.

use crate::sender::Rtt;

#[derive(Clone, Copy, Debug, PartialEq, Eq)]
pub struct PacketState {
    pub number: u32,
    /// Full time of its message.
    pub time: u64,
    pub message: u32,
    pub place: u8,
    pub length: u32,
    /// Sendings so far.
    pub count: u32,
    /// Low 32 bits of the resend time, where there is one.
    pub due: Option<u32>,
    /// A sum over the payload's bytes.
    pub sum: u64,
}

/// Kept by pacing. Counts are those since the last estimate.
#[derive(Clone, Copy, Debug, Default, PartialEq, Eq)]
pub struct PacingState {
    pub next: Option<u64>,
    pub packets: u64,
    pub bytes: u64,
    pub packet_mean: u64,
    pub packet_variance: u64,
    pub byte_mean: u64,
    pub byte_variance: u64,
}

#[derive(Clone, Debug, Default, PartialEq, Eq)]
pub struct State {
    pub packets: Vec<PacketState>,
    pub next_unsent: u32,
    /// The number that the next packet gets.
    pub next_number: u32,
    pub next_message: u32,
    /// Ascending from the front.
    pub lost: Vec<u32>,
    pub rtt: Rtt,
    pub bytes: u64,
    pub expected_full: u64,
    /// Resend times kept, for whatever numbers.
    pub resend_entries: u64,
    pub pacing: PacingState,
}

#[derive(Clone, Copy, Debug, PartialEq, Eq)]
pub struct TimerState {
    pub origin: u64,
    pub period: u64,
}

#[derive(Clone, Copy, Debug, PartialEq, Eq)]
pub struct TimersState {
    pub snd: TimerState,
    pub full_ack: TimerState,
    pub nak: TimerState,
    pub exp: TimerState,
    pub peer_idle: TimerState,
    pub statistics: TimerState,
    pub exp_count: u32,
}

impl TimersState {
    /// The six timers.
    pub fn all(&self) -> [TimerState; 6] {
        [self.snd, self.full_ack, self.nak, self.exp, self.peer_idle, self.statistics]
    }
}

/// The sum over a payload that `PacketState` holds (FNV-1a).
pub fn payload_sum(payload: &[u8]) -> u64 {
    payload.iter().fold(0xcbf2_9ce4_8422_2325, |sum, byte| (sum ^ u64::from(*byte)).wrapping_mul(0x0000_0100_0000_01b3))
}
