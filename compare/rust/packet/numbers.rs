//! Stands in for sequence, message and full ACK numbers (document 01, Numbers
//! and their ends, and ACK).

use std::{cmp::Ordering, fmt, ops::AddAssign};

/// 31 bits, wraps to 0. The difference is the distance modulo 2^31; `a >= b`
/// where the distance from b to a is below 2^30.
#[derive(Clone, Copy, Debug, PartialEq, Eq, Hash)]
pub struct SeqNumber(u32);

impl SeqNumber {
    const MODULUS: u32 = 1 << 31;

    pub fn new_truncate(number: u32) -> Self {
        SeqNumber(number % Self::MODULUS)
    }

    pub fn as_raw(self) -> u32 {
        self.0
    }

    /// Counts up, and gives the number before.
    pub fn increment(&mut self) -> Self {
        let before = *self;
        *self += 1;
        before
    }
}

impl AddAssign<u32> for SeqNumber {
    fn add_assign(&mut self, count: u32) {
        *self = *self + count;
    }
}

impl Ord for SeqNumber {
    fn cmp(&self, other: &Self) -> Ordering {
        match *self - *other {
            0 => Ordering::Equal,
            distance if distance < Self::MODULUS / 2 => Ordering::Greater,
            _ => Ordering::Less,
        }
    }
}

impl PartialOrd for SeqNumber {
    fn partial_cmp(&self, other: &Self) -> Option<Ordering> {
        Some(self.cmp(other))
    }
}

impl fmt::Display for SeqNumber {
    fn fmt(&self, f: &mut fmt::Formatter<'_>) -> fmt::Result {
        write!(f, "{}", self.0)
    }
}

/// 26 bits, wraps to 0.
#[derive(Clone, Copy, Debug, PartialEq, Eq)]
pub struct MsgNumber(u32);

impl MsgNumber {
    const MODULUS: u32 = 1 << 26;

    pub fn new_truncate(number: u32) -> Self {
        MsgNumber(number % Self::MODULUS)
    }

    pub fn as_raw(self) -> u32 {
        self.0
    }

    /// Counts up, and gives the number before.
    pub fn increment(&mut self) -> Self {
        let before = *self;
        *self = MsgNumber::new_truncate(self.0 + 1);
        before
    }
}

/// Starts at 1 and doesn't wrap: after 2^32 - 1 comes 2^32.
#[derive(Clone, Copy, Debug, PartialEq, Eq, PartialOrd, Ord)]
pub struct FullAckSeqNumber(pub u64);

impl FullAckSeqNumber {
    pub const INITIAL: FullAckSeqNumber = FullAckSeqNumber(1);
}

operators! {
    Add add: SeqNumber, u32 => SeqNumber, |a, b| SeqNumber::new_truncate(a.0.wrapping_add(b));
    Sub sub: SeqNumber, SeqNumber => u32, |a, b| a.0.wrapping_sub(b.0) % SeqNumber::MODULUS;
    Rem rem: SeqNumber, u32 => u32, |a, b| a.0 % b;
    Add add: FullAckSeqNumber, u64 => FullAckSeqNumber, |a, b| FullAckSeqNumber(a.0 + b);
}
