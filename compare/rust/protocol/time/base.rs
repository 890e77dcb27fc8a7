//! Stands in for the time base: stamps count from the connection's start.

use std::time::Instant;

use crate::packet::TimeStamp;

#[derive(Debug)]
pub struct TimeBase {
    start: Instant,
}

impl TimeBase {
    pub fn new(start: Instant) -> Self {
        TimeBase { start }
    }

    pub fn timestamp_from(&self, at: Instant) -> TimeStamp {
        TimeStamp::from_micros((at - self.start).as_micros() as u64)
    }
}
