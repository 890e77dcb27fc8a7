// The file encapsulate.rs as it stands, and beside it a child module that
// reads its private fields.
include!("../../../files/protocol/sender/encapsulate.rs");

mod inside;
