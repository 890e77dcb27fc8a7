//! Books of the leaves that break a rule, and numbers that stand for nothing: no
//! script reaches them. Each word is given each of the values at which a rule
//! ends; the proved library must answer and give back what the model does. The
//! sender's are tried by tests/damage.c.

use std::mem::size_of;

use crate::{
    flat::{Pacing, Rtt, Timer, Timers, TimersAnswer},
    table::{entry, Table, MODEL},
};

/// The ends of document 01's ranges, from either side; a word of four bytes takes
/// the low half.
fn values() -> Vec<u64> {
    let powers = [26, 31, 32, 38, 40, 42, 48, 49, 58, 62, 63].map(|bits| 1u64 << bits);
    let limits = [2, 4, 5, 6, 129, 1_457, 8_193, 10_001, 65_536, 65_535_001, 100_000_001, 1_000_000_000_000_001];
    let ends = powers.into_iter().chain(limits);
    let sides = ends.flat_map(|end| [end - 1, end, end + 1]);
    sides.chain([0, u64::MAX]).collect()
}

/// Copies of plain numbers, each with one word of `width` bytes changed.
fn copies<T: Copy>(good: T, width: usize) -> Vec<T> {
    let mut all = Vec::new();
    for at in (0..size_of::<T>()).step_by(width) {
        for value in values() {
            let mut copy = good;
            let word = value.to_le_bytes();
            // Sound: the bytes lie inside `copy`, and any bytes are numbers of its fields.
            unsafe {
                let to = (&mut copy as *mut T).cast::<u8>().add(at);
                to.copy_from_nonoverlapping(word.as_ptr(), width);
            }
            all.push(copy);
        }
    }
    all
}

/// Words of eight bytes and of four.
fn damaged_copies<T: Copy>(good: T) -> Vec<T> {
    [copies(good, 8), copies(good, 4)].concat()
}

/// Whether all calls of the leaves answer alike, for timers and pacing.
fn same_timer(a: &Table, b: &Table, timer: Timer) -> bool {
    let calls = |t: &Table| {
        let set = |period| entry!(t, timer_set(timer, period));
        let at = |now| (entry!(t, timer_reset(timer, now)), entry!(t, timer_check(timer, now)));
        (set(0), set(1 << 60), at(0), at(1 << 58), entry!(t, timer_period(timer)), entry!(t, timer_next(timer)))
    };
    calls(a) == calls(b)
}

fn same_timers(a: &Table, b: &Table, timers: Timers) -> bool {
    let calls = |t: &Table, now: u64| {
        let checks = [t.check_snd, t.check_full_ack, t.check_nak, t.check_statistics, t.check_idle, t.reset_exp];
        let checked = checks.map(|check| entry!(Checked { check }, check(timers, now)));
        let rtt = |mean| entry!(t, update_rtt(timers, Rtt { mean, variance: 0 }));
        let next = entry!(t, next_timer(timers, now, true, true, 0, 1));
        (checked, rtt(1), rtt(u32::MAX), next, entry!(t, update_snd_period(timers, now)))
    };
    [0, 1 << 58].into_iter().all(|now| calls(a, now) == calls(b, now))
}

/// One check, called as a table's entry is.
struct Checked {
    check: unsafe extern "C" fn(Timers, u64) -> TimersAnswer,
}

fn same_pacing(a: &Table, b: &Table, pacing: Pacing) -> bool {
    let calls = |t: &Table| {
        let input = |now, packets| entry!(t, pacing_input(pacing, now, packets, 0));
        let made = entry!(t, pacing_new(pacing.mode, pacing.rate, pacing.overhead));
        (input(1, 1), input(200_000, 1), input(1 << 48, u64::MAX), input(1, u64::MAX), made)
    };
    calls(a) == calls(b)
}

/// How many damaged books were tried, and those that the two tables don't treat
/// alike, by name.
pub fn damaged(library: &Table) -> (usize, Vec<&'static str>) {
    let good = entry!(MODEL, timers_new(7, 1_000, 1_000)).timers;
    let mut pacing = entry!(MODEL, pacing_new(1, 1 << 40, 10_000)).pacing;
    (pacing.begun, pacing.next) = (1, 1);
    let single = damaged_copies(good.snd).into_iter();
    let all = damaged_copies(good).into_iter();
    let pacings = damaged_copies(pacing).into_iter();
    let alike = single.map(|timer| ("a timer", same_timer(library, &MODEL, timer)));
    let alike = alike.chain(all.map(|timers| ("timers", same_timers(library, &MODEL, timers))));
    let alike = alike.chain(pacings.map(|pacing| ("pacing", same_pacing(library, &MODEL, pacing))));
    let tried: Vec<(&str, bool)> = alike.collect();
    let different = tried.iter().filter(|(_, alike)| !alike);
    (tried.len(), different.map(|(name, _)| *name).collect())
}
