//! The library, called through library.c.

use std::{
    os::raw::{c_int, c_void},
    time::{Duration, Instant},
};

use calls::{Acked, LossRun, Pushed, Ran, Record, Reports, Settings};

use crate::scenario::Call;

extern "C" {
    fn lent_new(settings: *const [u32; 7]) -> *mut c_void;
    fn lent_free(l: *mut c_void);
    fn lent_mark(l: *mut c_void);
    fn lent_back(l: *mut c_void);
    fn lent_message(
        l: *mut c_void,
        time: u64,
        now: u64,
        payload: *const u8,
        len: usize,
        answer: *mut u64,
    ) -> c_int;
    fn lent_ack(
        l: *mut c_void,
        number: u32,
        full: u32,
        mean: u32,
        variance: u32,
        answer: *mut u64,
    ) -> c_int;
    fn lent_nak(l: *mut c_void, words: *const u32, len: usize, runs: *mut usize) -> c_int;
    fn lent_run(l: *mut c_void, now: u64, budget: u32, answer: *mut u64) -> c_int;
    fn lent_reports(l: *const c_void, answer: *mut u64) -> c_int;
    fn lent_records(l: *const c_void) -> *const u8;
    fn lent_runs(l: *const c_void) -> *const u32;
}

/// What a call answers; the lists of a run and of a report are read apart.
pub enum Told {
    Pushed(Pushed),
    Acked(Acked),
    Runs(usize),
    Ran { records: usize, left: u32 },
}

/// A call with all that it lends.
pub enum Prepared<'a> {
    Message {
        time: u64,
        payload: Vec<u8>,
    },
    Ack {
        number: u32,
        full: u32,
        mean: u32,
        variance: u32,
    },
    Nak(&'a [u32]),
    Run {
        now: u64,
        budget: u32,
    },
}

pub fn prepare(call: &Call) -> Prepared<'_> {
    match call {
        Call::Message { time, seed } => Prepared::Message {
            time: *time,
            payload: Call::payload(*seed),
        },
        Call::Ack(ack) => {
            let rtt = ack.rtt.expect("a full ACK brings it");
            let full = ack.full.expect("a full ACK brings it");
            Prepared::Ack {
                number: ack.number,
                full,
                mean: rtt.mean,
                variance: rtt.variance,
            }
        }
        Call::Nak(words) => Prepared::Nak(words),
        Call::Run { now, budget } => Prepared::Run {
            now: *now,
            budget: *budget,
        },
    }
}

/// The refusal's number, where there is one.
fn told(refused: c_int, answer: Told) -> Result<Told, c_int> {
    if refused == 0 {
        Ok(answer)
    } else {
        Err(refused)
    }
}

/// How long each call took, and `reports` beside it.
#[derive(Default)]
pub struct Times {
    pub calls: Vec<Duration>,
    pub checks: Vec<Duration>,
}

pub struct Library(*mut c_void);

impl Library {
    pub fn new(s: &Settings) -> Library {
        let words = [
            s.first,
            s.size,
            s.buffer,
            s.window,
            s.latency as u32,
            s.overhead,
            s.id,
        ];
        // Sound: the seven numbers are as struct phel_settings has them.
        let lent = unsafe { lent_new(&words) };
        assert!(!lent.is_null(), "the settings are refused");
        Library(lent)
    }

    /// Notes the sender as it is, for `back`.
    pub fn mark(&mut self) {
        // Sound: `self.0` is what lent_new gave, as in every call below.
        unsafe { lent_mark(self.0) }
    }

    pub fn back(&mut self) {
        unsafe { lent_back(self.0) }
    }

    pub fn call(&mut self, call: &Prepared) -> Result<Told, c_int> {
        match call {
            Prepared::Message { time, payload } => self.message(*time, payload),
            Prepared::Ack {
                number,
                full,
                mean,
                variance,
            } => self.ack(*number, *full, *mean, *variance),
            Prepared::Nak(words) => self.nak(words),
            Prepared::Run { now, budget } => self.run(*now, *budget),
        }
    }

    fn message(&mut self, time: u64, payload: &[u8]) -> Result<Told, c_int> {
        let mut a = [0; 4];
        let (bytes, len) = (payload.as_ptr(), payload.len());
        let refused = unsafe { lent_message(self.0, time, time, bytes, len, a.as_mut_ptr()) };
        let pushed = Pushed {
            made: a[0],
            removed: a[1],
            removed_bytes: a[2],
            period: (a[3] != 0).then_some(a[3]),
        };
        told(refused, Told::Pushed(pushed))
    }

    fn ack(&mut self, number: u32, full: u32, mean: u32, variance: u32) -> Result<Told, c_int> {
        let mut a = [0; 3];
        let refused = unsafe { lent_ack(self.0, number, full, mean, variance, a.as_mut_ptr()) };
        let acked = Acked {
            received: a[0],
            recovered: a[1],
            full: Some(a[2] as u32),
        };
        told(refused, Told::Acked(acked))
    }

    fn nak(&mut self, words: &[u32]) -> Result<Told, c_int> {
        let mut runs = 0;
        let refused = unsafe { lent_nak(self.0, words.as_ptr(), words.len(), &mut runs) };
        told(refused, Told::Runs(runs))
    }

    fn run(&mut self, now: u64, budget: u32) -> Result<Told, c_int> {
        let mut a = [0; 2];
        let refused = unsafe { lent_run(self.0, now, budget, a.as_mut_ptr()) };
        let (records, left) = (a[0] as usize, a[1] as u32);
        told(refused, Told::Ran { records, left })
    }

    pub fn reports(&self) -> Reports {
        let mut a = [0; 5];
        let refused = unsafe { lent_reports(self.0, a.as_mut_ptr()) };
        assert_eq!(refused, 0, "reports refused");
        Reports {
            flushed: a[0] != 0,
            has_packets_to_send: a[1] != 0,
            packets: a[2],
            bytes: a[3],
            time: a[4],
        }
    }

    /// The last run's answer, with its records.
    pub fn ran(&self, records: usize, left: u32) -> Ran {
        // Sound: the run wrote so many records of 24 bytes.
        let bytes = unsafe { std::slice::from_raw_parts(lent_records(self.0), records * 24) };
        let record = |b: &[u8]| Record::try_from(b).expect("24 bytes");
        Ran {
            records: bytes.chunks(24).map(record).collect(),
            left,
        }
    }

    /// The last report's runs.
    pub fn runs(&self, count: usize) -> Vec<LossRun> {
        // Sound: the report wrote so many runs of three words.
        let words = unsafe { std::slice::from_raw_parts(lent_runs(self.0), count * 3) };
        words.chunks(3).map(LossRun::read).collect()
    }

    /// From the mark on, the calls one after another, each with the check beside it.
    /// The books are in the cache from the start, as the Rust's are.
    pub fn time(&mut self, calls: &[Prepared]) -> Times {
        let mut times = Times::default();
        self.back();
        self.reports();
        for call in calls {
            let start = Instant::now();
            self.reports();
            let checked = Instant::now();
            let answer = self.call(call);
            let end = Instant::now();
            assert!(answer.is_ok(), "a timed call is refused");
            times.checks.push(checked - start);
            times.calls.push(end - checked);
        }
        times
    }
}

impl Drop for Library {
    fn drop(&mut self) {
        unsafe { lent_free(self.0) }
    }
}
