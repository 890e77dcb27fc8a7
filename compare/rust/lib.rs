//! The crate around the seven files of the Rust sender: stand-ins for what
//! they lean on, and the judge that answers scripts with them. Compiled twice,
//! once around the files as they stand and once around the repaired ones.
#![allow(dead_code, unused_imports, unexpected_cfgs)]
#![allow(unstable_name_collisions)]
#![allow(clippy::all)]

/// Operators of the stand-ins, a line each.
macro_rules! operators {
    ($($operator:ident $method:ident: $left:ty, $right:ty => $result:ty, $work:expr;)*) => {
        $(impl std::ops::$operator<$right> for $left {
            type Output = $result;

            fn $method(self, other: $right) -> $result {
                let work: fn($left, $right) -> $result = $work;
                work(self, other)
            }
        })*
    };
}

pub(crate) mod action;
pub mod connection;
pub mod judge;
pub mod options;
pub mod packet;
pub mod protocol;
pub mod statistics;

/// The seven files as they were compiled.
pub const FILES: [(&str, &[u8]); 7] = [
    ("options/mod.rs", include_bytes!("../files/options/mod.rs")),
    ("protocol/sender/buffer.rs", include_bytes!("../files/protocol/sender/buffer.rs")),
    ("protocol/sender/congestion_control.rs", include_bytes!("../files/protocol/sender/congestion_control.rs")),
    ("protocol/sender/encapsulate.rs", include_bytes!("../files/protocol/sender/encapsulate.rs")),
    ("protocol/sender/mod.rs", include_bytes!("../files/protocol/sender/mod.rs")),
    ("protocol/time/mod.rs", include_bytes!("../files/protocol/time/mod.rs")),
    ("protocol/time/timer.rs", include_bytes!("../files/protocol/time/timer.rs")),
];
