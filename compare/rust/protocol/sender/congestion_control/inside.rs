//! Reads the private books of pacing, and paces alone.

use super::*;
use crate::{action::Paced, protocol::sender::Sender};

impl RateEstimation {
    fn since_last(&self) -> u64 {
        (self.total - self.last) as u64
    }
}

impl SenderCongestionControl {
    pub(crate) fn books(&self, start: Instant) -> calls::PacingState {
        let InputRateEstimation { packets, bytes, .. } = &self.estimation;
        calls::PacingState {
            next: self.next.map(|next| (next - start).as_micros() as u64),
            packets: packets.since_last(),
            bytes: bytes.since_last(),
            packet_mean: packets.mean as u64,
            packet_variance: packets.variance as u64,
            byte_mean: bytes.mean as u64,
            byte_variance: bytes.variance as u64,
        }
    }
}

impl Paced for SenderCongestionControl {
    fn input(&mut self, now: Instant, packets: u64, bytes: u64) -> Option<u64> {
        let period = self.on_input(now, PacketCount(packets), ByteCount(bytes));
        period.map(|period| period.as_micros() as u64)
    }

    fn state(&self, start: Instant) -> calls::PacingState {
        self.books(start)
    }
}

impl Sender {
    pub(crate) fn pacing(mode: LiveBandwidthMode) -> Box<dyn Paced> {
        Box::new(SenderCongestionControl::new(mode))
    }
}
