//! How the sender's arguments are written, and their records.

use std::fmt::{self, Display, Formatter};

use crate::{
    field::{apart, hex, pair, Field, Taken, Words},
    sender::{Ack, Payload, Report, Run, AMPLE},
};

impl Payload {
    /// The longest that a script may name, and that a record may.
    const MOST: u32 = 1 << 24;
    const RECORDED: u32 = 512;

    fn read_hex(digits: &str) -> Result<Payload, String> {
        let fault = || format!("'{digits}' is not whole bytes in hex");
        if digits.len() % 2 == 1 || !digits.is_ascii() {
            return Err(fault());
        }
        let byte = |at: usize| u8::from_str_radix(&digits[at..at + 2], 16).map_err(|_| fault());
        let bytes: Result<Vec<u8>, String> = (0..digits.len()).step_by(2).map(byte).collect();
        bytes.map(Payload::Given)
    }
}

impl Field for Payload {
    fn write(&self, f: &mut Formatter) -> fmt::Result {
        match self {
            Payload::Seeded { length, seed } => write!(f, " {length} {seed}"),
            Payload::Given(bytes) => write!(f, " hex {}", hex(bytes)),
        }
    }

    fn read(words: &mut Words, _: &str) -> Result<Self, String> {
        if words.taken("hex") {
            return Payload::read_hex(words.rest.next().unwrap_or(""));
        }
        let length = u32::read(words, "length")?;
        if length > Payload::MOST {
            return Err(format!("a length of {length} bytes is too much to try"));
        }
        let seed = match words.rest.peek() {
            Some(_) => u32::read(words, "seed")?,
            None => 0,
        };
        Ok(Payload::Seeded { length, seed })
    }

    fn put(&self, numbers: &mut Vec<u64>) -> Option<()> {
        match self {
            Payload::Seeded { length, seed } if *length <= Payload::RECORDED => {
                numbers.extend([u64::from(*length), u64::from(*seed)]);
                Some(())
            }
            _ => None,
        }
    }

    fn fetch(numbers: &mut Taken) -> Option<Self> {
        let (length, seed) = (u32::fetch(numbers)?, u32::fetch(numbers)?);
        Some(Payload::Seeded { length, seed })
    }
}

/// An ACK as a script's call.
impl Display for Ack {
    fn fmt(&self, f: &mut Formatter) -> fmt::Result {
        write!(f, "ack")?;
        self.write(f)
    }
}

impl Field for Ack {
    fn write(&self, f: &mut Formatter) -> fmt::Result {
        write!(f, " {}", self.number)?;
        if let Some(rtt) = self.rtt {
            write!(f, " rtt {} {}", rtt.mean, rtt.variance)?;
        }
        self.full.map_or(Ok(()), |full| write!(f, " full {full}"))
    }

    fn read(words: &mut Words, _: &str) -> Result<Self, String> {
        Ok(Ack { number: u32::read(words, "number")?, rtt: words.after("rtt")?, full: words.after("full")? })
    }

    fn put(&self, numbers: &mut Vec<u64>) -> Option<()> {
        self.number.put(numbers)?;
        self.full.put(numbers)?;
        self.rtt.put(numbers)
    }

    fn fetch(numbers: &mut Taken) -> Option<Self> {
        Some(Ack { number: u32::fetch(numbers)?, full: Option::fetch(numbers)?, rtt: Option::fetch(numbers)? })
    }
}

/// The one other room that a record can say.
const TIGHT: u64 = 2;

fn write_room(f: &mut Formatter, room: u64) -> fmt::Result {
    if room == AMPLE {
        return Ok(());
    }
    write!(f, " room {room}")
}

fn read_room(words: &mut Words) -> Result<u64, String> {
    Ok(words.after("room")?.unwrap_or(AMPLE))
}

/// The room is a record's last number.
fn put_room(numbers: &mut Vec<u64>, room: u64) -> Option<()> {
    numbers.resize(7, 0);
    match room {
        AMPLE => numbers.push(0),
        TIGHT => numbers.push(1),
        _ => return None,
    }
    Some(())
}

fn take_room(numbers: &mut Taken) -> Option<u64> {
    let tight = *numbers.0.last()? == 1;
    Some(if tight { TIGHT } else { AMPLE })
}

impl Field for Report {
    /// A word that opens a range is written in hexadecimal.
    fn write(&self, f: &mut Formatter) -> fmt::Result {
        for word in &self.words {
            match word >> 31 {
                0 => write!(f, " {word}")?,
                _ => write!(f, " {word:#010x}")?,
            }
        }
        write_room(f, self.room)
    }

    fn read(words: &mut Words, _: &str) -> Result<Self, String> {
        let mut list = Vec::new();
        while words.rest.peek().map_or(false, |word| *word != "room") {
            list.push(u32::read(words, "loss word")?);
        }
        let room = read_room(words)?;
        Ok(Report { words: list, room })
    }

    /// How many words, and up to ten of them, two in a number.
    fn put(&self, numbers: &mut Vec<u64>) -> Option<()> {
        if self.words.len() > 10 {
            return None;
        }
        numbers.push(self.words.len() as u64);
        let pairs = self.words.chunks(2);
        numbers.extend(pairs.map(|two| pair(two[0], two.get(1).copied().unwrap_or(0))));
        put_room(numbers, self.room)
    }

    fn fetch(numbers: &mut Taken) -> Option<Self> {
        let room = take_room(numbers)?;
        let count = usize::try_from(numbers.number()?).ok()?;
        let all = numbers.0.iter().take(5).map(|n| apart(*n));
        let all: Vec<u32> = all.flat_map(|(low, high)| [low, high]).collect();
        let words = all.get(..count)?.to_vec();
        Some(Report { words, room })
    }
}

impl Field for Run {
    fn write(&self, f: &mut Formatter) -> fmt::Result {
        let drain = if self.draining { " drain" } else { "" };
        write!(f, " {} {}{drain}", self.now, self.budget)?;
        write_room(f, self.room)
    }

    fn read(words: &mut Words, _: &str) -> Result<Self, String> {
        Ok(Run {
            now: u64::read(words, "now")?,
            budget: u32::read(words, "budget")?,
            draining: words.taken("drain"),
            room: read_room(words)?,
        })
    }

    fn put(&self, numbers: &mut Vec<u64>) -> Option<()> {
        numbers.extend([self.now, u64::from(self.budget), u64::from(self.draining)]);
        put_room(numbers, self.room)
    }

    fn fetch(numbers: &mut Taken) -> Option<Self> {
        let room = take_room(numbers)?;
        Some(Run { now: numbers.number()?, budget: u32::fetch(numbers)?, draining: bool::fetch(numbers)?, room })
    }
}
