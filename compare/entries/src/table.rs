//! The entries as two have them: the model of document 01 (model/model.h), and,
//! where its archives are at hand, the proved library.

use crate::flat::*;

/// Makes the table of functions, and the tables of the model and the library from
/// each function's two names.
macro_rules! entries {
    ($($entry:ident($($word:ident: $kind:ty),*) $(-> $answer:ty)?, $model:ident, $library:ident;)*) => {
        /// Functions that take and give numbers; an area crosses as a pointer and how
        /// many elements it has.
        #[derive(Clone, Copy)]
        pub struct Table {
            $(pub $entry: unsafe extern "C" fn($($kind),*) $(-> $answer)?,)*
        }

        extern "C" {
            $(fn $model($($word: $kind),*) $(-> $answer)?;)*
        }

        pub static MODEL: Table = Table { $($entry: $model,)* };

        #[cfg(linked)]
        mod proved {
            use super::*;

            extern "C" {
                $(fn $library($($word: $kind),*) $(-> $answer)?;)*
            }

            pub static TABLE: Table = Table { $($entry: $library,)* };
        }
    };
}

type Ring = *mut u64;
type Lost = *mut u32;
type Bytes = *mut u8;

entries! {
    new(settings: Settings, mode: u32, rate: u64, overhead: u64) -> NewAnswer, model_new, phel_entry_new;
    message(
        given: Flat, time: u64, now: u64, payload: *const u8, payload_len: usize, ring: Ring, ring_len: usize,
        lost: Lost, lost_len: usize, store: Bytes, store_len: usize
    ) -> MessageAnswer, model_message, phel_entry_message;
    ack(
        given: Flat, number: u32, full: bool, full_number: u32, measured: bool, rtt: Rtt, ring: Ring,
        ring_len: usize, lost: Lost, lost_len: usize
    ) -> AckAnswer, model_ack, phel_entry_ack;
    nak(
        given: Flat, words: *const u32, words_len: usize, ring: Ring, ring_len: usize, lost: Lost,
        lost_len: usize, out: *mut u32, out_len: usize
    ) -> NakAnswer, model_nak, phel_entry_nak;
    run(
        given: Flat, now: u64, budget: u32, draining: bool, ring: Ring, ring_len: usize, lost: Lost,
        lost_len: usize, out: Bytes, out_len: usize
    ) -> RunAnswer, model_run, phel_entry_run;
    payload(
        given: Flat, number: u32, ring: Ring, ring_len: usize, lost: Lost, lost_len: usize, store: Bytes,
        store_len: usize
    ) -> PayloadAnswer, model_payload, phel_entry_payload;
    reports(
        given: Flat, ring: Ring, ring_len: usize, lost: Lost, lost_len: usize
    ) -> ReportsAnswer, model_reports, phel_entry_reports;
    header(
        out: Bytes, place: u32, again: bool, number: u32, message: u32, stamp: u32, id: u32
    ), model_header, phel_entry_header;
    timers_new(
        now: u64, statistics: u64, idle: u64
    ) -> TimersAnswer, model_timers_new, phel_entry_timers_new;
    next_timer(
        timers: Timers, now: u64, packets: bool, known: bool, message: u64, unacked: u32
    ) -> NanosecondsAnswer, model_timers_next_timer, phel_entry_timers_next_timer;
    check_snd(timers: Timers, now: u64) -> TimersAnswer, model_timers_check_snd, phel_entry_timers_check_snd;
    check_full_ack(
        timers: Timers, now: u64
    ) -> TimersAnswer, model_timers_check_full_ack, phel_entry_timers_check_full_ack;
    check_nak(timers: Timers, now: u64) -> TimersAnswer, model_timers_check_nak, phel_entry_timers_check_nak;
    check_statistics(
        timers: Timers, now: u64
    ) -> TimersAnswer, model_timers_check_statistics, phel_entry_timers_check_statistics;
    check_idle(
        timers: Timers, now: u64
    ) -> TimersAnswer, model_timers_check_peer_idle_timeout, phel_entry_timers_check_peer_idle_timeout;
    update_snd_period(
        timers: Timers, period: u64
    ) -> TimersAnswer, model_timers_update_snd_period, phel_entry_timers_update_snd_period;
    update_rtt(timers: Timers, rtt: Rtt) -> TimersAnswer, model_timers_update_rtt, phel_entry_timers_update_rtt;
    reset_exp(timers: Timers, now: u64) -> TimersAnswer, model_timers_reset_exp, phel_entry_timers_reset_exp;
    timer_new(now: u64, period: u64) -> TimerAnswer, model_timer_new, compare_timer_new;
    timer_period(timer: Timer) -> NanosecondsAnswer, model_timer_period, compare_timer_period;
    timer_next(timer: Timer) -> NanosecondsAnswer, model_timer_next_instant, compare_timer_next_instant;
    timer_reset(timer: Timer, now: u64) -> TimerAnswer, model_timer_reset, compare_timer_reset;
    timer_set(timer: Timer, period: u64) -> TimerAnswer, model_timer_set_period, compare_timer_set_period;
    timer_check(timer: Timer, now: u64) -> TimerAnswer, model_timer_check_expired, compare_timer_check_expired;
    pacing_new(mode: u32, rate: u64, overhead: u64) -> PacingAnswer, model_pacing_new, compare_pacing_new;
    pacing_input(
        pacing: Pacing, now: u64, packets: u64, bytes: u64
    ) -> PacingAnswer, model_pacing_on_input, compare_pacing_on_input;
    packets(len: usize, size: usize) -> PacketsAnswer, model_split_packets, compare_split_packets;
    piece(len: usize, size: usize, k: usize) -> PieceAnswer, model_split_packet, compare_split_packet;
}

/// The proved library, where it was at hand when this was built.
pub fn library() -> Option<&'static Table> {
    #[cfg(linked)]
    return Some(&proved::TABLE);
    #[cfg(not(linked))]
    return None;
}

/// Calls an entry that takes and gives numbers alone. Sound for any: it requires
/// nothing.
macro_rules! entry {
    ($table:expr, $entry:ident($($word:expr),*)) => {
        unsafe { ($table.$entry)($($word),*) }
    };
}

/// Calls an entry with a vector's or slice's pointer and length for each `[area]`.
/// Sound: they are as long as said, the written ones borrowed alone, and no entry
/// requires more or keeps a pointer.
macro_rules! lend {
    ($function:expr, ($($word:expr),*), $($area:expr),*) => {
        lend!(@ $function, ($($word,)*), $($area,)*)
    };
    (@ $function:expr, ($($word:expr,)*), $area:expr, $($rest:expr,)*) => {{
        let area = &mut *$area;
        let (at, len) = (area.as_mut_ptr(), area.len());
        lend!(@ $function, ($($word,)* at, len,), $($rest,)*)
    }};
    (@ $function:expr, ($($word:expr,)*),) => {
        unsafe { $function($($word),*) }
    };
}

pub(crate) use {entry, lend};
