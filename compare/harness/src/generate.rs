//! Random scripts for the sender, near the limits of its rules. The next call
//! depends on the books, so that ACKs, losses and times hit what is there.

use calls::{Ack, Payload, Rtt, Run, SenderCall, Settings, State, AMPLE};

use crate::{
    domain::late_window,
    generate_faulty::faulty,
    generate_losses::report,
    generate_start::{clock, settings, NUMBERS, STAMPS, TIMES},
    rng::Rng,
};

pub struct Generator {
    rng: Rng,
    pub settings: Settings,
    clock: u64,
    left: u64,
    closing: bool,
    first: bool,
    /// Nothing is removed by a full buffer or dropped late on purpose, so that
    /// the unmodified copy stays in.
    calm: bool,
    /// A large buffer, filled by few long messages.
    large: bool,
}

/// One script's settings in 4,000 have the largest buffer.
const LARGE: u64 = 4_000;

impl Generator {
    pub fn new(seed: u64) -> Self {
        let mut rng = Rng::new(seed);
        let large = rng.once_in(LARGE);
        let settings = settings(&mut rng, large);
        let clock = clock(&mut rng);
        let left = if large { 24 } else { rng.within(4, 120) };
        let calm = rng.once_in(2);
        Generator { rng, settings, clock, left, closing: false, first: true, calm, large }
    }

    pub fn next(&mut self, state: &State) -> Option<SenderCall> {
        if self.left == 0 || self.clock >= TIMES {
            return None;
        }
        self.left -= 1;
        if self.first {
            self.first = false;
            if self.rng.once_in(4) {
                let number = (1 << 26) - self.rng.within(1, 6) as u32;
                return Some(SenderCall::PresetMessage { number });
            }
        }
        self.closing |= self.rng.once_in(60);
        self.advance(state);
        let call = match self.rng.below(100) {
            0..=27 if self.closing && !self.rng.once_in(4) => self.run(state),
            0..=27 => self.message(state),
            28..=61 => self.run(state),
            62..=76 => self.ack(state),
            77..=90 => report(&mut self.rng, self.large, state),
            91..=93 => SenderCall::Reports {},
            94..=96 => self.payload(state),
            _ => faulty(&mut self.rng, self.clock, state),
        };
        Some(call)
    }

    fn advance(&mut self, state: &State) {
        let rng = &mut self.rng;
        let front = state.packets.first();
        self.clock += match rng.below(18) {
            0..=4 => 0,
            5..=7 => rng.below(2_000),
            8..=9 => rng.below(50_000),
            10..=13 | 16 if self.calm && front.is_some() => rng.below(9_000),
            10 => rng.below(200_000),
            11 => rng.within(319_998, 320_003),
            12..=13 => {
                let late_at = front.map_or(0, |p| p.time + late_window(&self.settings));
                (late_at + rng.below(3)).saturating_sub(self.clock + 1)
            }
            14..=15 => {
                let due = state.packets.iter().filter_map(|packet| packet.due).min();
                let ahead = due.map_or(0, |due| due.wrapping_sub(self.clock as u32));
                if ahead < 1 << 29 {
                    u64::from(ahead) + rng.below(2)
                } else {
                    0
                }
            }
            16 if front.is_none() => rng.below(4 * STAMPS),
            16 => rng.below(3_000_000),
            _ => {
                self.clock = self.clock.saturating_sub(rng.below(20_000));
                0
            }
        };
    }

    fn message(&mut self, state: &State) -> SenderCall {
        let rng = &mut self.rng;
        let size = u64::from(self.settings.size);
        let capacity = u64::from(self.settings.buffer.max(1));
        let free = capacity - state.packets.len() as u64;
        let length = match rng.below(12) {
            _ if self.large => size * rng.within(1_000, 9_000),
            _ if self.calm && free == 0 => return self.run(state),
            _ if self.calm => rng.below(free * size + 1),
            0 => 0,
            1 => size - 1,
            2..=3 => size,
            4 => size + 1,
            5 => 2 * size,
            6 => rng.below(4 * size),
            7 => size * rng.within(1, 6),
            8 if capacity < 64 => size * capacity + rng.below(2 * size + 1),
            _ => rng.within(1, size),
        };
        let time = match rng.below(12) {
            0 => self.clock.saturating_sub(rng.below(2_000)),
            1 => self.clock + rng.below(3_000),
            2 => self.clock.saturating_sub(rng.below(late_window(&self.settings))),
            _ => self.clock,
        };
        let now = match rng.below(10) {
            0 => self.clock + rng.below(400_000),
            _ => self.clock,
        };
        SenderCall::Message {
            time: time.min(TIMES - 1),
            now: now.min(TIMES - 1),
            payload: Payload::Seeded { length: length as u32, seed: rng.below(1 << 20) as u32 },
        }
    }

    fn run(&mut self, state: &State) -> SenderCall {
        let rng = &mut self.rng;
        let buffered = state.packets.len() as u64;
        let budget = match rng.below(16) {
            0 => 0,
            1..=6 => 1,
            7..=9 => 2,
            10 => u64::from(u32::MAX),
            _ => rng.within(1, buffered + 3),
        };
        let needed = budget.min(buffered) + 3;
        let room = match rng.below(40) {
            0 => needed,
            1 => rng.below(needed),
            _ => AMPLE,
        };
        let run = Run {
            now: self.clock,
            budget: budget as u32,
            draining: rng.below(10) < if self.closing { 8 } else { 1 },
            room,
        };
        SenderCall::Run { run }
    }

    fn ack(&mut self, state: &State) -> SenderCall {
        let rng = &mut self.rng;
        let next = u64::from(state.next_unsent);
        let front = state.packets.first().map_or(next, |p| u64::from(p.number));
        let sent = (next + NUMBERS - front) % NUMBERS;
        let number = match rng.below(16) {
            0 => front + NUMBERS - rng.within(1, 3),
            1 => next + rng.within(1, 3),
            2 => rng.below(NUMBERS),
            3 => next,
            _ => front + rng.below(sent + 1),
        };
        let rtt = match rng.below(12) {
            0..=2 => Some((rng.below(300_000), rng.below(100_000))),
            3 => Some((rng.below(3_000), rng.below(1_000))),
            4 if rng.once_in(4) => Some((rng.within(99_999_900, 100_000_000), 100_000_000)),
            5 => Some((0, 0)),
            _ => None,
        };
        let expected = state.expected_full.min(u64::from(u32::MAX) - 8);
        let full = match rng.below(12) {
            0..=3 => Some(expected),
            4 => Some(expected + rng.within(1, 5)),
            5 => Some(expected - 1),
            6 => Some(0),
            7 if rng.once_in(400) => Some(u64::from(u32::MAX)),
            _ => None,
        };
        let ack = Ack {
            number: (number % NUMBERS) as u32,
            full: full.map(|full| full as u32),
            rtt: rtt.map(|(mean, variance)| Rtt { mean: mean as u32, variance: variance as u32 }),
        };
        SenderCall::Ack { ack }
    }

    fn payload(&mut self, state: &State) -> SenderCall {
        let rng = &mut self.rng;
        let next = u64::from(state.next_number);
        let back = rng.below(state.packets.len() as u64 + 2);
        let number = match rng.below(8) {
            0 => rng.below(NUMBERS),
            1..=3 => next + NUMBERS - 1,
            _ => next + NUMBERS - back,
        };
        let number = (number % NUMBERS) as u32;
        SenderCall::Payload { number }
    }
}
