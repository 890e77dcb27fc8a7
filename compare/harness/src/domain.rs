//! The domain of equality: of the calls that document 01 doesn't refuse, those
//! that the Rust must answer alike.

use calls::{LeafCall, PacketState, SenderCall, Settings, State, TimerState};

use crate::leaf_books::LeafBooks;

const HALF_STAMP: u64 = 1 << 31;
const ADDITION_LIMIT: u64 = (1 << 30) - 1;
/// Within this, all resend times of a run lie within 2^31 of each other.
const SPAN: u64 = 1 << 30;
/// Microseconds: from here on document 01 holds a period and the Rust doesn't.
pub const LONGEST_PERIOD: u64 = 1_000_000_000_000;
const MOST_PERIODS: u64 = (1 << 32) - 1;

/// The distance from a to b.
pub fn distance(a: u32, b: u32) -> u64 {
    u64::from(b.wrapping_sub(a) % (1 << 31))
}

pub fn late_window(settings: &Settings) -> u64 {
    (settings.latency + settings.latency / 4).max(1_000_000)
}

/// First and last now of the runs since nothing was buffered.
pub type Runs = Option<(u64, u64)>;

fn runs_with(runs: Runs, now: u64) -> (u64, u64) {
    let (first, last) = runs.unwrap_or((now, now));
    (first.min(now), last.max(now))
}

/// The runs after a call that left these books.
pub fn runs_after(runs: Runs, call: &SenderCall, state: &State) -> Runs {
    let runs = match call {
        SenderCall::Run { run } => Some(runs_with(runs, run.now)),
        _ => runs,
    };
    runs.filter(|_| !state.packets.is_empty())
}

/// Whether a call that isn't refused lies inside the domain.
pub fn admits(call: &SenderCall, state: &State, settings: &Settings, runs: Runs) -> bool {
    match call {
        SenderCall::Message { time, .. } => {
            let near = |packet: &PacketState| packet.time.abs_diff(*time) < SPAN;
            state.packets.iter().all(near)
        }
        SenderCall::Run { run } => {
            let (first, last) = runs_with(runs, run.now);
            let window = late_window(settings);
            let c = u64::from(state.rtt.mean) + 4 * u64::from(state.rtt.variance) + 20_000;
            let inside = |packet: &PacketState| {
                let late_at = packet.time + window;
                late_at.abs_diff(run.now) < HALF_STAMP && u64::from(packet.count) * c + 10_000 < ADDITION_LIMIT
            };
            last - first < SPAN && state.packets.iter().all(inside)
        }
        _ => true,
    }
}

/// The same of a leaf's call: no number is held at a cap, but for the period,
/// which is seen afterwards.
pub fn admits_leaf(call: &LeafCall, books: &LeafBooks) -> bool {
    let few = |timer: &TimerState, now: u64| {
        timer.period == 0 || now.saturating_sub(timer.origin) / timer.period <= MOST_PERIODS
    };
    match (call, books.timer, books.timers) {
        (LeafCall::TimerCheck { now }, Some(timer), _) => few(&timer, *now),
        (LeafCall::TimersCheck { now, .. }, _, Some(timers)) => {
            timers.all().iter().all(|timer| few(timer, *now)) && timers.exp_count < u32::MAX
        }
        (LeafCall::TimersRtt { rtt }, _, Some(timers)) => {
            let once = 4 * u64::from(rtt.mean) + u64::from(rtt.variance) + 10_000;
            u64::from(timers.exp_count) * once.max(300_000) <= LONGEST_PERIOD
        }
        _ => true,
    }
}
