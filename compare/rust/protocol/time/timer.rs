// The file timer.rs as it stands, and beside it a child module that
// reads its private fields.
include!("../../../files/protocol/time/timer.rs");

mod inside;
