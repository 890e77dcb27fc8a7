//! `BTreeSet::first` for compilers before 1.66, which don't have it; theirs goes
//! before this one where they do.

use std::collections::BTreeSet;

pub trait First<T> {
    fn first(&self) -> Option<&T>;
}

impl<T> First<T> for BTreeSet<T> {
    fn first(&self) -> Option<&T> {
        self.iter().next()
    }
}
