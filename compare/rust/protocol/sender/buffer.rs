// The file buffer.rs as it stands, and beside it a child module that
// reads its private fields.
include!("../../../files/protocol/sender/buffer.rs");

mod inside;
