//! What the calls of the leaves bring: one timer, all timers, pacing, splitting,
//! header.

/// Which of `Timers` is checked.
#[derive(Clone, Copy, Debug, PartialEq, Eq)]
pub enum Which {
    Snd,
    FullAck,
    Nak,
    PeerIdle,
    Statistics,
}

pub const CHECKS: [(&str, Which); 5] = [
    ("snd", Which::Snd),
    ("ack", Which::FullAck),
    ("nak", Which::Nak),
    ("idle", Which::PeerIdle),
    ("statistics", Which::Statistics),
];

/// One packet that a message is split into.
#[derive(Clone, Copy, Debug, PartialEq, Eq)]
pub struct Piece {
    pub place: u8,
    pub length: u32,
}

/// Which calls a script makes, or show a bend.
#[derive(Clone, Copy, Debug, PartialEq, Eq)]
pub enum Area {
    Sender,
    Timer,
    Timers,
    Pacing,
    Split,
    Header,
}

/// The areas by name; the leaves in the order of the report.
pub const AREAS: [(Area, &str); 6] = [
    (Area::Sender, "sender"),
    (Area::Timer, "timer"),
    (Area::Timers, "timers"),
    (Area::Pacing, "pacing"),
    (Area::Split, "split"),
    (Area::Header, "header"),
];

impl Area {
    pub fn named(name: &str) -> Option<Area> {
        let named = AREAS.iter().find(|(_, known)| *known == name);
        named.map(|(area, _)| *area)
    }
}
