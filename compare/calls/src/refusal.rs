//! The refusals of document 01, by number, each with the values that its row
//! names.

use std::fmt::{self, Display, Formatter};

#[derive(Clone, Copy, Debug, PartialEq, Eq)]
pub struct Refusal {
    pub number: u32,
    /// Those that the row doesn't name are 0.
    pub values: [u64; 3],
}

pub const EMPTY: u32 = 9;
pub const INVALID_ACK: u32 = 10;
pub const STALE_FULL_ACK: u32 = 11;
pub const NOT_HELD: u32 = 14;

/// Name and values of each row, from 1.
const ROWS: [(&str, &[&str]); 14] = [
    ("BadSetting", &[]),
    ("BadStore", &[]),
    ("BadState", &[]),
    ("BadTime", &[]),
    ("TooLong", &[]),
    ("CountFull", &[]),
    ("BadNumber", &[]),
    ("BadRtt", &[]),
    ("Empty", &[]),
    ("InvalidAck", &["ack", "first", "next"]),
    ("StaleFullAck", &["full", "expected"]),
    ("BadNak", &["index"]),
    ("NoRoom", &[]),
    ("NotHeld", &[]),
];

impl Refusal {
    /// The refusal of a number, without values.
    pub fn plain(number: u32) -> Self {
        Refusal::with(number, [0; 3])
    }

    pub fn with(number: u32, values: [u64; 3]) -> Self {
        Refusal { number, values }
    }

    pub fn name(&self) -> &'static str {
        ROWS[self.number as usize - 1].0
    }

    /// Whether it is given for a call's arguments. The Rust has none of these, and
    /// isn't given such a call.
    pub fn by_arguments(&self) -> bool {
        matches!(self.number, 1 | 4..=8 | 12 | 13)
    }
}

impl Display for Refusal {
    fn fmt(&self, f: &mut Formatter) -> fmt::Result {
        write!(f, "refused {} {}", self.number, self.name())?;
        let names = ROWS[self.number as usize - 1].1;
        let mut named = names.iter().zip(self.values);
        named.try_for_each(|(name, value)| write!(f, " {name} {value}"))
    }
}
