//! Stands in for the packets: numbers, stamps, data packets, the control
//! packets that a sender meets.

mod control;
mod data;
mod first;
mod loss;
mod numbers;
mod rtt;
mod stamp;

pub use control::*;
pub use data::*;
pub use first::First;
pub use loss::*;
pub use numbers::*;
pub use rtt::Rtt;
pub use stamp::*;
