//! The calls that scripts make and what they answer, as plain data, with how both
//! are written (docs/SCRIPTS.md). A sender of any make implements `Sender` and
//! `Leaves`; the harness knows it by these alone.
//!
//! Times of the sender are microseconds since start, those of timers are
//! nanoseconds. Sequence and message numbers are the wrapped ones of the wire.

mod answer;
mod call;
mod field;
mod leaves;
mod parties;
mod refusal;
mod sender;
mod sender_fields;
mod settings;
mod state;

pub use answer::*;
pub use call::*;
pub use field::*;
pub use leaves::*;
pub use parties::*;
pub use refusal::*;
pub use sender::*;
pub use state::*;
