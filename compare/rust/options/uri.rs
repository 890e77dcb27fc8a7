//! Stands in for the reading of addresses, of which the sender uses nothing.

pub mod url_parse {}
