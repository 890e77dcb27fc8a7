//! Reads and presets what the timers keep. Times go in and out as nanoseconds
//! since a start.

use super::*;
use crate::protocol::time::Timers;
use calls::{TimerState, TimersState};

impl Timer {
    pub(crate) fn books(&self, start: Instant) -> TimerState {
        TimerState { origin: (self.last - start).as_nanos() as u64, period: self.period.as_nanos() as u64 }
    }
}

impl Timers {
    pub(crate) fn snd_period(&mut self) -> Duration {
        self.snd.period()
    }

    pub(crate) fn preset_exp_count(&mut self, count: u32) {
        self.exp_count = count;
    }

    pub(crate) fn books(&self, start: Instant) -> TimersState {
        TimersState {
            snd: self.snd.books(start),
            full_ack: self.full_ack.books(start),
            nak: self.nak.books(start),
            exp: self.exp.books(start),
            peer_idle: self.peer_idle.books(start),
            statistics: self.statistics.books(start),
            exp_count: self.exp_count,
        }
    }
}
