//! Stands in for the bandwidth modes.

use super::{DataRate, Percent};

#[derive(Clone, Debug)]
pub enum LiveBandwidthMode {
    Input { rate: DataRate, overhead: Percent },
    Max(DataRate),
    Unlimited,
    Estimated { expected: DataRate, overhead: Percent },
}
