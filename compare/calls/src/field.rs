//! The parts of calls: how each is written in a script, and as numbers in a
//! record of 64 bytes (compare/README.md).

use std::{
    fmt::{self, Formatter},
    iter::Peekable,
    str::{FromStr, SplitWhitespace},
};

use crate::{
    leaves::{Which, CHECKS},
    sender::{Mode, Rtt},
};

/// A record: the operation, then up to seven numbers; those not used are 0.
pub type Numbers = [u64; 8];

/// Numbers of a record, taken one by one.
pub struct Taken<'a>(pub &'a [u64]);

impl Taken<'_> {
    pub fn number(&mut self) -> Option<u64> {
        let (first, rest) = self.0.split_first()?;
        self.0 = rest;
        Some(*first)
    }
}

/// Two numbers in one, the first in the low half; and apart.
pub fn pair(low: u32, high: u32) -> u64 {
    u64::from(low) + (u64::from(high) << 32)
}

pub fn apart(n: u64) -> (u32, u32) {
    (n as u32, (n >> 32) as u32)
}

pub trait Field: Sized {
    /// Writes it with a blank before it.
    fn write(&self, f: &mut Formatter) -> fmt::Result;
    fn read(words: &mut Words, name: &str) -> Result<Self, String>;
    /// Appends its numbers; none where it has no place in a record.
    fn put(&self, numbers: &mut Vec<u64>) -> Option<()>;
    fn fetch(numbers: &mut Taken) -> Option<Self>;
}

/// The words of one line, taken one by one.
pub struct Words<'a> {
    pub rest: Peekable<SplitWhitespace<'a>>,
}

impl<'a> Words<'a> {
    pub fn of(line: &'a str) -> Self {
        Words { rest: line.split_whitespace().peekable() }
    }

    pub fn word(&mut self, what: &str) -> Result<&'a str, String> {
        self.rest.next().ok_or(format!("{what} is missing"))
    }

    pub fn taken(&mut self, word: &str) -> bool {
        self.rest.next_if(|next| *next == word).is_some()
    }

    /// The field after this word, where it stands next.
    pub fn after<T: Field>(&mut self, word: &str) -> Result<Option<T>, String> {
        if !self.taken(word) {
            return Ok(None);
        }
        T::read(self, word).map(Some)
    }

    pub fn end(&mut self) -> Result<(), String> {
        match self.rest.next() {
            None => Ok(()),
            Some(word) => Err(format!("'{word}' is too much")),
        }
    }
}

pub fn hex(bytes: &[u8]) -> String {
    bytes.iter().map(|byte| format!("{byte:02X}")).collect()
}

/// A number that fits `T`, decimal or 0x.
pub fn number<T: TryFrom<u64>>(word: &str) -> Result<T, String> {
    let read = match word.strip_prefix("0x") {
        Some(digits) => u64::from_str_radix(digits, 16),
        None => u64::from_str(word),
    };
    let value = read.map_err(|_| format!("'{word}' is not a number"))?;
    T::try_from(value).map_err(|_| format!("{value} is too large"))
}

/// A socket id, written in hexadecimal.
#[derive(Clone, Copy, Debug, PartialEq, Eq)]
pub struct Id(pub u32);

macro_rules! number_fields {
    ($($kind:ty, $format:literal, $of:expr, $to:expr;)*) => {
        $(impl Field for $kind {
            fn write(&self, f: &mut Formatter) -> fmt::Result {
                write!(f, $format, $to(*self))
            }

            fn read(words: &mut Words, name: &str) -> Result<Self, String> {
                let read = number(words.word(name)?).map($of);
                read.map_err(|fault| format!("{name}: {fault}"))
            }

            fn put(&self, numbers: &mut Vec<u64>) -> Option<()> {
                numbers.push(u64::from($to(*self)));
                Some(())
            }

            fn fetch(numbers: &mut Taken) -> Option<Self> {
                numbers.number()?.try_into().ok().map($of)
            }
        })*
    };
}

number_fields! {
    u64, " {}", |n: u64| n, |n: u64| n;
    u32, " {}", |n: u32| n, |n: u32| n;
    u8, " {}", |n: u8| n, |n: u8| n;
    Id, " {:#010x}", Id, |id: Id| id.0;
}

impl Field for bool {
    fn write(&self, f: &mut Formatter) -> fmt::Result {
        write!(f, " {}", u8::from(*self))
    }

    fn read(words: &mut Words, name: &str) -> Result<Self, String> {
        match u64::read(words, name)? {
            0 => Ok(false),
            1 => Ok(true),
            other => Err(format!("{name} is 0 or 1, not {other}")),
        }
    }

    fn put(&self, numbers: &mut Vec<u64>) -> Option<()> {
        numbers.push(u64::from(*self));
        Some(())
    }

    fn fetch(numbers: &mut Taken) -> Option<Self> {
        numbers.number().map(|n| n == 1)
    }
}

/// A value that may be missing, then `-`; in a record whether it is there, and
/// it.
impl<T: Field + Default> Field for Option<T> {
    fn write(&self, f: &mut Formatter) -> fmt::Result {
        match self {
            Some(value) => value.write(f),
            None => write!(f, " -"),
        }
    }

    fn read(words: &mut Words, name: &str) -> Result<Self, String> {
        if words.taken("-") {
            return Ok(None);
        }
        T::read(words, name).map(Some)
    }

    fn put(&self, numbers: &mut Vec<u64>) -> Option<()> {
        numbers.push(u64::from(self.is_some()));
        match self {
            Some(value) => value.put(numbers),
            None => T::default().put(numbers),
        }
    }

    fn fetch(numbers: &mut Taken) -> Option<Self> {
        let there = numbers.number()? == 1;
        let value = T::fetch(numbers)?;
        Some(there.then_some(value))
    }
}

impl Field for Rtt {
    fn write(&self, f: &mut Formatter) -> fmt::Result {
        write!(f, " {} {}", self.mean, self.variance)
    }

    fn read(words: &mut Words, _: &str) -> Result<Self, String> {
        let mean = u32::read(words, "mean")?;
        let variance = u32::read(words, "variance")?;
        Ok(Rtt { mean, variance })
    }

    fn put(&self, numbers: &mut Vec<u64>) -> Option<()> {
        self.mean.put(numbers)?;
        self.variance.put(numbers)
    }

    fn fetch(numbers: &mut Taken) -> Option<Self> {
        let (mean, variance) = (u32::fetch(numbers)?, u32::fetch(numbers)?);
        Some(Rtt { mean, variance })
    }
}

impl Field for Which {
    fn write(&self, f: &mut Formatter) -> fmt::Result {
        let named = CHECKS.iter().find(|(_, check)| check == self);
        write!(f, " {}", named.map_or("", |(name, _)| name))
    }

    fn read(words: &mut Words, name: &str) -> Result<Self, String> {
        let word = words.word(name)?;
        let named = CHECKS.iter().find(|(known, _)| *known == word);
        named.map(|(_, which)| *which).ok_or(format!("there is no timer '{word}'"))
    }

    fn put(&self, numbers: &mut Vec<u64>) -> Option<()> {
        let place = CHECKS.iter().position(|(_, check)| check == self)?;
        (place as u64).put(numbers)
    }

    fn fetch(numbers: &mut Taken) -> Option<Self> {
        let place = numbers.number()? as usize;
        CHECKS.get(place).map(|(_, which)| *which)
    }
}

impl Field for Mode {
    fn write(&self, f: &mut Formatter) -> fmt::Result {
        write!(f, " {self}")
    }

    fn read(words: &mut Words, name: &str) -> Result<Self, String> {
        words.word(name)?.parse()
    }

    fn put(&self, numbers: &mut Vec<u64>) -> Option<()> {
        let (mode, rate, overhead) = self.numbers();
        numbers.extend([u64::from(mode), rate, overhead]);
        Some(())
    }

    fn fetch(numbers: &mut Taken) -> Option<Self> {
        let mode = u32::fetch(numbers)?;
        Mode::of(mode, numbers.number()?, numbers.number()?)
    }
}
