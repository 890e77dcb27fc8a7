//! Stands in for the round-trip time: mean and variance in microseconds, at
//! start 100,000 and 50,000 (document 01, Numbers and their ends).

use std::time::Duration;

use super::TimeSpan;

#[derive(Clone, Debug, PartialEq, Eq)]
pub struct Rtt {
    mean: u32,
    variance: u32,
}

impl Rtt {
    pub fn new(mean: u32, variance: u32) -> Self {
        Rtt { mean, variance }
    }

    pub fn mean(&self) -> TimeSpan {
        TimeSpan::from_micros(i64::from(self.mean))
    }

    pub fn variance(&self) -> TimeSpan {
        TimeSpan::from_micros(i64::from(self.variance))
    }

    pub fn mean_as_duration(&self) -> Duration {
        Duration::from_micros(u64::from(self.mean))
    }

    pub fn variance_as_duration(&self) -> Duration {
        Duration::from_micros(u64::from(self.variance))
    }
}

impl Default for Rtt {
    fn default() -> Self {
        Rtt::new(100_000, 50_000)
    }
}
