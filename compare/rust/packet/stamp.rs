//! Stands in for stamps and spans: a stamp is the low 32 bits of a time in
//! microseconds and is ordered by the nearer way round, a span is signed.

use std::{cmp::Ordering, time::Duration};

#[derive(Clone, Copy, Debug, PartialEq, Eq)]
pub struct TimeStamp(u32);

#[derive(Clone, Copy, Debug, PartialEq, Eq)]
pub struct TimeSpan(i64);

impl TimeStamp {
    /// The stamp of a time in microseconds.
    pub fn from_micros(micros: u64) -> Self {
        TimeStamp((micros % (1 << 32)) as u32)
    }

    pub fn as_micros(self) -> u32 {
        self.0
    }

    fn after(self, micros: i64) -> Self {
        TimeStamp((i64::from(self.0) + micros).rem_euclid(1 << 32) as u32)
    }
}

impl Ord for TimeStamp {
    fn cmp(&self, other: &Self) -> Ordering {
        (*self - *other).0.cmp(&0)
    }
}

impl PartialOrd for TimeStamp {
    fn partial_cmp(&self, other: &Self) -> Option<Ordering> {
        Some(self.cmp(other))
    }
}

impl TimeSpan {
    pub fn from_micros(micros: i64) -> Self {
        TimeSpan(micros)
    }

    pub fn as_micros(self) -> i64 {
        self.0
    }
}

operators! {
    Sub sub: TimeStamp, TimeStamp => TimeSpan, |a, b| TimeSpan(i64::from(a.0.wrapping_sub(b.0) as i32));
    Add add: TimeStamp, TimeSpan => TimeStamp, |a, b| a.after(b.0);
    Add add: TimeStamp, Duration => TimeStamp, |a, b| a.after(b.as_micros() as i64);
    Add add: TimeSpan, TimeSpan => TimeSpan, |a, b| TimeSpan(a.0 + b.0);
    Add add: TimeSpan, Duration => TimeSpan, |a, b| TimeSpan(a.0 + b.as_micros() as i64);
    Mul mul: i32, TimeSpan => TimeSpan, |a, b| TimeSpan(i64::from(a) * b.0);
}
