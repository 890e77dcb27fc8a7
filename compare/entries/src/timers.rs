//! One timer, and all timers, behind the entries. What a refused call gives back
//! is taken over too, so that the comparison of the books sees that it stayed.

use calls::{Answer, LeafCall, Refusal, TimerState, TimersState, Which};

use crate::{
    bend::Bend,
    flat::{Rtt, Timer, Timers, TimersAnswer},
    table::{entry, Table},
};

#[derive(Clone)]
pub struct EntryTimers {
    pub table: &'static Table,
    pub bend: Bend,
    pub timer: Option<Timer>,
    pub timers: Option<Timers>,
}

/// The refusal of a number: those that the leaves give bring no values.
pub fn refused(number: u32) -> Result<(), Refusal> {
    match number {
        0 => Ok(()),
        number => Err(Refusal::plain(number)),
    }
}

/// Of a call that is no check.
fn set(number: u32, periods: u32) -> Answer {
    assert_eq!(periods, 0, "periods of a call that is no check");
    Answer::done(refused(number))
}

/// Of a check; 0 periods stand for nothing.
fn fired(number: u32, periods: u32) -> Answer {
    let told = (periods > 0).then_some(periods);
    Answer::of(refused(number), |()| Answer::Fired(told))
}

fn timer_state(timer: Timer) -> TimerState {
    TimerState { origin: timer.last, period: timer.period }
}

fn timers_state(timers: Timers) -> TimersState {
    TimersState {
        snd: timer_state(timers.snd),
        full_ack: timer_state(timers.full_ack),
        nak: timer_state(timers.nak),
        exp: timer_state(timers.exp),
        peer_idle: timer_state(timers.peer_idle),
        statistics: timer_state(timers.statistics),
        exp_count: timers.exp_count,
    }
}

impl EntryTimers {
    /// One call of a timer, or of the timers; nothing where there are none.
    pub fn call(&mut self, call: &LeafCall) -> Answer {
        use LeafCall::*;
        match (call, self.timer, self.timers) {
            (TimerNew { now, period }, ..) => self.new_timer(*now, *period),
            (TimersNew { now, statistics, idle }, ..) => self.new_timers(*now, *statistics, *idle),
            (TimerSet { .. } | TimerReset { .. } | TimerCheck { .. } | TimerNext {} | TimerState {}, timer, _) => {
                timer.map_or(Answer::Nothing, |timer| self.call_timer(call, timer))
            }
            (_, _, timers) => timers.map_or(Answer::Nothing, |timers| self.call_timers(call, timers)),
        }
    }

    fn new_timer(&mut self, now: u64, period: u64) -> Answer {
        let answer = entry!(self.table, timer_new(now, period));
        if answer.refusal == 0 {
            self.timer = Some(answer.timer);
        }
        set(answer.refusal, answer.periods)
    }

    fn new_timers(&mut self, now: u64, statistics: u64, idle: u64) -> Answer {
        let answer = entry!(self.table, timers_new(now, statistics, idle));
        if answer.refusal == 0 {
            self.timers = Some(answer.timers);
        }
        set(answer.refusal, answer.periods)
    }

    fn call_timer(&mut self, call: &LeafCall, timer: Timer) -> Answer {
        let table = self.table;
        let answer = match call {
            LeafCall::TimerSet { period } => entry!(table, timer_set(timer, *period)),
            LeafCall::TimerReset { now } => entry!(table, timer_reset(timer, *now)),
            LeafCall::TimerCheck { now } => return self.check_timer(timer, *now),
            LeafCall::TimerNext {} => {
                let next = entry!(table, timer_next(timer));
                assert_eq!(next.refusal, 0, "a timer that a call left is refused");
                return Answer::At(match self.bend {
                    Bend::InstantIsOrigin => timer.last,
                    _ => next.nanoseconds,
                });
            }
            _ => {
                let period = entry!(table, timer_period(timer));
                assert_eq!((period.refusal, period.nanoseconds), (0, timer.period));
                return Answer::Timer(timer_state(timer));
            }
        };
        self.timer = Some(answer.timer);
        set(answer.refusal, answer.periods)
    }

    fn check_timer(&mut self, timer: Timer, now: u64) -> Answer {
        let mut answer = entry!(self.table, timer_check(timer, now));
        match self.bend {
            Bend::TimerKept => answer.timer = timer,
            Bend::OnePeriodMore if answer.periods > 0 => answer.periods += 1,
            Bend::RefusalOneUp if answer.refusal > 0 => answer.refusal += 1,
            Bend::RefusedMoves if answer.refusal > 0 => answer.timer.last += 1,
            _ => {}
        }
        self.timer = Some(answer.timer);
        fired(answer.refusal, answer.periods)
    }

    fn check(&self, which: Which, timers: Timers, now: u64) -> TimersAnswer {
        let table = self.table;
        let check = match (which, self.bend) {
            (Which::Snd, _) => table.check_snd,
            (Which::FullAck, _) | (Which::Nak, Bend::NakAsAck) => table.check_full_ack,
            (Which::Nak, _) => table.check_nak,
            (Which::PeerIdle, _) => table.check_idle,
            (Which::Statistics, _) => table.check_statistics,
        };
        // Sound for any numbers: no entry requires anything of them.
        unsafe { check(timers, now) }
    }

    fn call_timers(&mut self, call: &LeafCall, timers: Timers) -> Answer {
        let table = self.table;
        let answer = match call {
            LeafCall::TimersCheck { which, now } => self.check(*which, timers, *now),
            LeafCall::TimersSnd { period } => entry!(table, update_snd_period(timers, *period)),
            LeafCall::TimersRtt { rtt } => {
                let (mean, variance) = match self.bend {
                    Bend::VarianceAsMean => (rtt.variance, rtt.mean),
                    _ => (rtt.mean, rtt.variance),
                };
                entry!(table, update_rtt(timers, Rtt { mean, variance }))
            }
            LeafCall::TimersResetExp { now } => entry!(table, reset_exp(timers, *now)),
            LeafCall::TimersPresetExp { count } => {
                TimersAnswer { timers: Timers { exp_count: *count, ..timers }, ..TimersAnswer::default() }
            }
            LeafCall::TimersWake { .. } => return self.wake(call, timers),
            _ => return Answer::Timers(timers_state(timers)),
        };
        let mut left = answer.timers;
        match (self.bend, call) {
            (Bend::StatisticsKept, _) => left.statistics = timers.statistics,
            (Bend::ExpCountKept, LeafCall::TimersPresetExp { .. }) => {}
            (Bend::ExpCountKept, _) => left.exp_count = timers.exp_count,
            _ => {}
        }
        self.timers = Some(left);
        match call {
            LeafCall::TimersCheck { .. } => fired(answer.refusal, answer.periods),
            _ => set(answer.refusal, answer.periods),
        }
    }

    fn wake(&self, call: &LeafCall, timers: Timers) -> Answer {
        match call {
            LeafCall::TimersWake { now, to_send, message, unacked } => {
                let known = message.is_some() && self.bend != Bend::MessageForgotten;
                let at = message.unwrap_or(0);
                let next = entry!(self.table, next_timer(timers, *now, *to_send, known, at, *unacked));
                Answer::of(refused(next.refusal), |()| Answer::At(next.nanoseconds))
            }
            _ => Answer::Nothing,
        }
    }
}
