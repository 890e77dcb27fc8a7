//! Stands in for the units. Percent and PacketPeriod round down as document
//! 01 says (Pacing).

use std::time::Duration;

#[derive(Clone, Copy, Debug, PartialEq, Eq)]
pub struct PacketCount(pub u64);

#[derive(Clone, Copy, Debug, PartialEq, Eq)]
pub struct ByteCount(pub u64);

#[derive(Clone, Copy, Debug, PartialEq, Eq)]
pub struct PacketSize(pub u64);

#[derive(Clone, Copy, Debug, PartialEq, Eq)]
pub struct Percent(pub u64);

/// Bytes per second.
#[derive(Clone, Copy, Debug, PartialEq, Eq, PartialOrd, Ord)]
pub struct DataRate(pub u64);

/// Packets per second.
#[derive(Clone, Copy, Debug, PartialEq, Eq, PartialOrd, Ord)]
pub struct PacketRate(pub u64);

pub struct PacketPeriod;

impl From<PacketCount> for u64 {
    fn from(count: PacketCount) -> u64 {
        count.0
    }
}

impl From<ByteCount> for u64 {
    fn from(count: ByteCount) -> u64 {
        count.0
    }
}

impl From<PacketSize> for usize {
    fn from(size: PacketSize) -> usize {
        size.0 as usize
    }
}

impl PacketPeriod {
    /// The time that a packet of this size takes; none where that is less
    /// than a microsecond.
    pub fn try_from(rate: DataRate, size: PacketSize) -> Option<Duration> {
        let micros = 1_000_000 * u128::from(size.0) / u128::from(rate.0);
        (micros > 0).then(|| Duration::from_micros(micros as u64))
    }
}

operators! {
    Add add: Percent, Percent => Percent, |a, b| Percent(a.0 + b.0);
    Mul mul: DataRate, Percent => DataRate, |a, b| {
        let product = u128::from(a.0) * u128::from(b.0);
        DataRate((product / 100) as u64)
    };
    Div div: DataRate, PacketRate => PacketSize, |a, b| PacketSize(a.0 / b.0);
}
