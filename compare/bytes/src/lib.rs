//! Stands in for the crate bytes: a shared, cheaply cloned part of a byte
//! area. Only what the sender's files use.

use std::{fmt, ops::Deref, sync::Arc};

#[derive(Clone)]
pub struct Bytes {
    area: Arc<[u8]>,
    start: usize,
    end: usize,
}

impl Bytes {
    /// Splits off the first `at` bytes; `self` keeps the rest.
    pub fn split_to(&mut self, at: usize) -> Bytes {
        assert!(at <= self.len(), "split_to out of bounds");
        let cut = self.start + at;
        let first = Bytes { area: Arc::clone(&self.area), start: self.start, end: cut };
        self.start = cut;
        first
    }
}

impl Deref for Bytes {
    type Target = [u8];

    fn deref(&self) -> &[u8] {
        &self.area[self.start..self.end]
    }
}

impl From<&[u8]> for Bytes {
    fn from(bytes: &[u8]) -> Self {
        Bytes { area: Arc::from(bytes), start: 0, end: bytes.len() }
    }
}

impl PartialEq for Bytes {
    fn eq(&self, other: &Self) -> bool {
        self[..] == other[..]
    }
}

impl Eq for Bytes {}

impl fmt::Debug for Bytes {
    fn fmt(&self, f: &mut fmt::Formatter<'_>) -> fmt::Result {
        fmt::Debug::fmt(&self[..], f)
    }
}
