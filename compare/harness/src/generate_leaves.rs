//! Random scripts for the leaves, near the limits of their rules.

use calls::{Area, Id, LeafCall, Rtt, TimerState, Which, CHECKS};

use crate::{generate_start::mode, leaf_books::LeafBooks, rng::Rng};

const TIMER_LIMIT: u64 = 1 << 58;
const TIME_LIMIT: u64 = 1 << 48;
const PERIOD_LIMIT: u64 = 1_000_000_000_000_000;

pub struct LeafGenerator {
    rng: Rng,
    area: Area,
    clock: u64,
    left: u64,
}

impl LeafGenerator {
    pub fn new(area: Area, seed: u64) -> Self {
        let mut rng = Rng::new(seed);
        let limit = if area == Area::Pacing { TIME_LIMIT } else { TIMER_LIMIT };
        let clock = match rng.below(4) {
            0 => rng.below(1_000),
            1 => limit - rng.within(1, 1 << 40),
            _ => rng.below(limit - (1 << 44)),
        };
        LeafGenerator { left: rng.within(20, 200), rng, area, clock }
    }

    pub fn next(&mut self, books: &LeafBooks) -> Option<LeafCall> {
        if self.left == 0 {
            return None;
        }
        self.left -= 1;
        Some(match self.area {
            Area::Timer => self.timer(books),
            Area::Timers => self.timers(books),
            Area::Pacing => self.pacing(books),
            Area::Split => self.split(),
            _ => self.header(),
        })
    }

    fn period(&mut self) -> u64 {
        let rng = &mut self.rng;
        match rng.below(12) {
            0 => 0,
            1 => rng.within(1, 999),
            2 => rng.within(999, 1_001),
            3..=5 => rng.below(10_000),
            6 => rng.within(PERIOD_LIMIT - 2, PERIOD_LIMIT),
            7 => PERIOD_LIMIT + 1,
            8 => rng.below(PERIOD_LIMIT),
            _ => rng.below(2_000_000_000),
        }
    }

    /// Near a timer's next firing, some periods on, or before its origin.
    fn near(&mut self, timer: TimerState) -> u64 {
        let rng = &mut self.rng;
        let periods = match rng.below(8) {
            0..=3 => 1,
            4 => 0,
            5 => rng.below(100_000),
            _ => rng.below(6),
        };
        let at = timer.origin + periods * timer.period.min(1 << 40) + rng.below(3);
        let at = match rng.below(12) {
            0 => timer.origin.saturating_sub(rng.below(5_000)),
            1 => TIMER_LIMIT - 1 + rng.below(2),
            2 => at + rng.below(timer.period.max(1)),
            _ => at.saturating_sub(1),
        };
        at.min(TIMER_LIMIT)
    }

    fn timer(&mut self, books: &LeafBooks) -> LeafCall {
        let timer = match books.timer {
            Some(timer) => timer,
            None => return LeafCall::TimerNew { now: self.clock, period: self.period() },
        };
        match self.rng.below(10) {
            0 => LeafCall::TimerSet { period: self.period() },
            1 if self.rng.once_in(3) => LeafCall::TimerReset { now: self.near(timer) },
            1 if self.rng.once_in(3) => LeafCall::TimerNew { now: self.near(timer), period: self.period() },
            2 => LeafCall::TimerNext {},
            _ => LeafCall::TimerCheck { now: self.near(timer) },
        }
    }

    fn timers(&mut self, books: &LeafBooks) -> LeafCall {
        let timers = match books.timers {
            Some(timers) => timers,
            None => {
                let idles = [5_000_000_000, 1_000_000, 600_000_000, 1_000];
                return LeafCall::TimersNew { now: self.clock, statistics: self.period(), idle: self.rng.pick(&idles) };
            }
        };
        let aimed = self.rng.pick(&timers.all());
        let now = self.near(aimed);
        match self.rng.below(16) {
            0 => LeafCall::TimersSnd { period: self.period() },
            1..=2 => LeafCall::TimersRtt { rtt: self.rtt() },
            3 if self.rng.once_in(3) => LeafCall::TimersResetExp { now },
            4 if self.rng.once_in(2) => LeafCall::TimersPresetExp { count: self.exp_count() },
            5..=8 => LeafCall::TimersWake {
                now,
                to_send: self.rng.once_in(2),
                message: self.rng.once_in(2).then(|| self.near(aimed)),
                unacked: self.rng.pick(&[0, 0, 1, 7]),
            },
            9..=12 => LeafCall::TimersCheck { which: Which::PeerIdle, now: self.near(timers.exp) },
            _ => LeafCall::TimersCheck { which: self.rng.pick(&CHECKS).1, now },
        }
    }

    fn rtt(&mut self) -> Rtt {
        let rng = &mut self.rng;
        let (mean, variance) = match rng.below(6) {
            0 => (rng.within(99_999_999, 100_000_001), rng.below(1_000)),
            1 => (rng.below(1_000), rng.within(99_999_999, 100_000_001)),
            2 => (0, 0),
            3 => (rng.below(30_000), rng.below(20_000)),
            _ => (rng.below(400_000), rng.below(200_000)),
        };
        Rtt { mean: mean as u32, variance: variance as u32 }
    }

    fn exp_count(&mut self) -> u32 {
        let rng = &mut self.rng;
        let count = match rng.below(4) {
            0 => rng.within(15, 18),
            1 => rng.below(3_000_000),
            2 => u64::from(u32::MAX) - 1,
            _ => rng.within(1, 40),
        };
        count as u32
    }

    fn pacing(&mut self, books: &LeafBooks) -> LeafCall {
        let pacing = match books.pacing {
            Some(pacing) => pacing,
            None => {
                let mode = mode(&mut self.rng);
                return LeafCall::PacingNew { mode };
            }
        };
        let rng = &mut self.rng;
        if let Some(next) = pacing.next {
            self.clock = match rng.below(12) {
                0..=2 => next - 1 + rng.below(3),
                3 => next + rng.within(99_998, 100_001),
                4 => next + rng.below(3_000_000),
                5 if rng.once_in(20) => next + rng.below(1 << 40),
                5 => self.clock.saturating_sub(rng.below(50_000)),
                6 if rng.once_in(10) => TIME_LIMIT - 1 + rng.below(2),
                _ => self.clock + rng.below(60_000),
            };
        }
        self.clock = self.clock.min(TIME_LIMIT);
        let packets = match rng.below(16) {
            0 => 0,
            1 => rng.within((1 << 38) - 4, (1 << 38) + 1),
            _ => rng.within(1, 12),
        };
        let bytes = match rng.below(16) {
            0 => 0,
            1 => rng.within((1 << 38) - 4, (1 << 38) + 1),
            2 => rng.below(1 << 38),
            _ => rng.below(1_457 * (packets % 100 + 1)),
        };
        LeafCall::PacingInput { now: self.clock, packets, bytes }
    }

    fn split(&mut self) -> LeafCall {
        let rng = &mut self.rng;
        let longest = rng.once_in(1_000);
        let size = match rng.below(12) {
            0 => rng.pick(&[0, 1_457, 1_456]),
            1 => rng.within(1, 1_456),
            _ if longest && !rng.once_in(40) => rng.within(400, 1_456),
            _ => rng.within(1, 12),
        };
        let length = match rng.below(20) {
            _ if longest => 1_048_575 + rng.below(3),
            0 => 0,
            1..=8 => (size * rng.below(20) + rng.below(3)).saturating_sub(1),
            _ => rng.below(200),
        };
        LeafCall::Split { size: size as u32, length: length as u32 }
    }

    fn header(&mut self) -> LeafCall {
        let rng = &mut self.rng;
        let mut field = |limit: u64| match rng.below(6) {
            0 => 0,
            1 => limit - 1,
            _ => rng.below(limit),
        };
        LeafCall::Header {
            number: field(1 << 31) as u32,
            place: field(4) as u8,
            again: field(2) == 1,
            message: field(1 << 26) as u32,
            stamp: field(1 << 32) as u32,
            id: Id(field(1 << 32) as u32),
        }
    }
}
