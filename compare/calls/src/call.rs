//! The calls of a script. Each has the number of its record (none from 100 on), its
//! name, and its fields in the order in which they are written.

use std::fmt::{self, Display, Formatter};

use crate::{
    field::{Field, Id, Numbers, Taken, Words},
    leaves::Which,
    sender::{Ack, Mode, Payload, Report, Rtt, Run, Settings},
};

macro_rules! calls {
    ($kind:ident: $($number:literal $name:literal $call:ident { $($field:ident: $type:ty),* })*) => {
        #[derive(Clone, Debug, PartialEq, Eq)]
        pub enum $kind {
            $($call { $($field: $type),* },)*
        }

        impl Display for $kind {
            fn fmt(&self, f: &mut Formatter) -> fmt::Result {
                match self {
                    $($kind::$call { $($field),* } => {
                        write!(f, $name)?;
                        $($field.write(f)?;)*
                    })*
                }
                Ok(())
            }
        }

        impl $kind {
            /// The call of that name; none where there is none.
            fn read(name: &str, words: &mut Words) -> Result<Option<Self>, String> {
                Ok(match name {
                    $($name => {
                        $(let $field = <$type>::read(words, stringify!($field))?;)*
                        Some($kind::$call { $($field),* })
                    })*
                    _ => None,
                })
            }

            /// The record of a call; none where it has no place in one.
            pub fn numbers(&self) -> Option<Numbers> {
                let mut all = Vec::new();
                match self {
                    $($kind::$call { $($field),* } => {
                        all.push($number);
                        $($field.put(&mut all)?;)*
                    })*
                }
                all.resize(8, 0);
                all.try_into().ok().filter(|numbers: &Numbers| numbers[0] < 100)
            }

            /// The call of a record; none where that is no record of a call, or not
            /// the one that this call has.
            pub fn of(numbers: &Numbers) -> Option<Self> {
                let taken = &mut Taken(&numbers[1..]);
                let call = match numbers[0] {
                    $($number => {
                        $(let $field = <$type>::fetch(taken)?;)*
                        $kind::$call { $($field),* }
                    })*
                    _ => return None,
                };
                (call.numbers() == Some(*numbers)).then_some(call)
            }
        }
    };
}

calls! { SenderCall:
    1 "new" New { settings: Settings }
    2 "message" Message { time: u64, now: u64, payload: Payload }
    3 "ack" Ack { ack: Ack }
    4 "nak" Nak { report: Report }
    5 "run" Run { run: Run }
    6 "reports" Reports {}
    7 "payload" Payload { number: u32 }
    8 "preset message" PresetMessage { number: u32 }
    100 "sent" Sent {}
    101 "state" State {}
}

calls! { LeafCall:
    1 "timer new" TimerNew { now: u64, period: u64 }
    2 "timer set" TimerSet { period: u64 }
    3 "timer reset" TimerReset { now: u64 }
    4 "timer check" TimerCheck { now: u64 }
    5 "timer next" TimerNext {}
    100 "timer state" TimerState {}
    6 "timers new" TimersNew { now: u64, statistics: u64, idle: u64 }
    7 "timers check" TimersCheck { which: Which, now: u64 }
    8 "timers wake" TimersWake { now: u64, to_send: bool, message: Option<u64>, unacked: u32 }
    9 "timers snd" TimersSnd { period: u64 }
    10 "timers rtt" TimersRtt { rtt: Rtt }
    11 "timers reset" TimersResetExp { now: u64 }
    12 "preset exp" TimersPresetExp { count: u32 }
    101 "timers state" TimersState {}
    13 "pacing new" PacingNew { mode: Mode }
    14 "pacing input" PacingInput { now: u64, packets: u64, bytes: u64 }
    102 "pacing state" PacingState {}
    15 "split" Split { size: u32, length: u32 }
    16 "header" Header { number: u32, place: u8, again: bool, message: u32, stamp: u32, id: Id }
}

#[derive(Clone, Debug, PartialEq, Eq)]
pub enum Call {
    Sender(SenderCall),
    Leaf(LeafCall),
}

impl Display for Call {
    fn fmt(&self, f: &mut Formatter) -> fmt::Result {
        match self {
            Call::Sender(call) => call.fmt(f),
            Call::Leaf(call) => call.fmt(f),
        }
    }
}

/// Words that a second one belongs to: together they are a call's name.
const FAMILIES: [&str; 4] = ["timer", "timers", "pacing", "preset"];

impl Call {
    pub fn read(line: &str) -> Result<Call, String> {
        let mut words = Words::of(line);
        let first = words.word("a call")?;
        let name = if FAMILIES.contains(&first) {
            format!("{first} {}", words.word("a call's second word")?)
        } else {
            first.to_string()
        };
        let call = match SenderCall::read(&name, &mut words)? {
            Some(call) => Call::Sender(call),
            None => LeafCall::read(&name, &mut words)?.map(Call::Leaf).ok_or(format!("there is no call '{name}'"))?,
        };
        words.end()?;
        call.in_range()?;
        Ok(call)
    }

    /// Numbers that stand for nothing: no refusal speaks of them.
    fn in_range(&self) -> Result<(), String> {
        match self {
            Call::Sender(SenderCall::PresetMessage { number }) if *number >= 1 << 26 => {
                Err(format!("{number} is no message number"))
            }
            Call::Leaf(LeafCall::Header { number, place, message, .. })
                if *number >= 1 << 31 || *place > 3 || *message >= 1 << 26 =>
            {
                Err("a header takes number < 2^31, place < 4, message < 2^26".to_string())
            }
            _ => Ok(()),
        }
    }
}
