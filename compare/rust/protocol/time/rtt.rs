// The round-trip time, where the Rust looks for it.
pub use crate::packet::Rtt;
