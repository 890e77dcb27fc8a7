//! The modules of the protocol that the sender's files name.

pub mod encryption;
pub mod output;
pub mod sender;
pub mod time;
