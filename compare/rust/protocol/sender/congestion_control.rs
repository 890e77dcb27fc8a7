// The file congestion_control.rs as it stands, and beside it a child module that
// reads its private fields.
include!("../../../files/protocol/sender/congestion_control.rs");

mod inside;
