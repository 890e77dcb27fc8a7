//! What the entries take and give, laid out as include/phelgomrit.h and
//! model/model.h have it.

macro_rules! flat {
    ($($(#[$doc:meta])* $name:ident { $($field:ident: $kind:ty),* })*) => {
        $($(#[$doc])*
        #[repr(C)]
        #[derive(Clone, Copy, Debug, Default, PartialEq, Eq)]
        pub struct $name {
            $(pub $field: $kind,)*
        })*
    };
}

flat! {
    Settings { first: u32, size: u32, buffer: u32, flow: u32, latency: u32, overhead: u32, socket: u32 }
    Ring { cap: usize, slot: usize, len: usize }
    Rtt { mean: u32, variance: u32 }
    Held { held: u32, number: u32, slot: usize, len: usize }
    Books {
        ring: Ring, front: u32, sent: u32, lost: usize, bytes: u64, rtt: Rtt, expected: u64, held: Held,
        message: u32
    }
    Estimate { count: u64, mean: u64, variance: u64 }
    Pacing {
        mode: u32, begun: u32, rate: u64, overhead: u64, next: u64, packets: Estimate, bytes: Estimate
    }
    /// All that a sender keeps beside the lent areas.
    Flat { settings: Settings, books: Books, pacing: Pacing }
    /// The refusal's number, 0 for none, and its values.
    Refused { number: u32, first: u64, second: u64, third: u64 }
    NewAnswer { refusal: Refused, sender: Flat }
    MessageAnswer { refusal: Refused, made: usize, removed: usize, bytes: u64, period: u64, sender: Flat }
    Acked { received: u32, recovered: u32, full: bool, full_number: u32 }
    AckAnswer { refusal: Refused, done: Acked, sender: Flat }
    NakAnswer { refusal: Refused, runs: usize, sender: Flat }
    Ran { records: usize, left: u32 }
    RunAnswer { refusal: Refused, done: Ran, sender: Flat }
    PayloadAnswer { refusal: Refused, place: usize, len: usize }
    Reports { is_flushed: bool, has_packets_to_send: bool, len: usize, len_bytes: u64, duration: u64 }
    ReportsAnswer { refusal: Refused, done: Reports }
    Timer { period: u64, last: u64 }
    Timers {
        snd: Timer, full_ack: Timer, nak: Timer, exp: Timer, exp_count: u32, peer_idle: Timer,
        statistics: Timer
    }
    TimerAnswer { refusal: u32, periods: u32, timer: Timer }
    TimersAnswer { refusal: u32, periods: u32, timers: Timers }
    NanosecondsAnswer { refusal: u32, nanoseconds: u64 }
    PacingAnswer { refusal: u32, period: u64, pacing: Pacing }
    PacketsAnswer { refusal: u32, packets: usize }
    PieceAnswer { refusal: u32, found: bool, place: u32, start: usize, len: usize }
}

/// The areas that stay lent. Each is lent for writing, also where an entry says
/// that it reads it only: so a write there would be seen.
#[derive(Clone, Debug, PartialEq, Eq)]
pub struct Areas {
    pub ring: Vec<u64>,
    pub lost: Vec<u32>,
    pub store: Vec<u8>,
}
