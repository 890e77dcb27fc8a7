//! How a sender's settings are written, and their record.

use std::{
    fmt::{self, Display, Formatter},
    str::FromStr,
};

use crate::{
    field::{apart, number, pair, Field, Taken, Words},
    sender::{Mode, Settings},
};

impl Display for Mode {
    fn fmt(&self, f: &mut Formatter) -> fmt::Result {
        match self {
            Mode::Input { rate, overhead } => write!(f, "input:{rate}:{overhead}"),
            Mode::Max(rate) => write!(f, "max:{rate}"),
            Mode::Unlimited => write!(f, "unlimited"),
            Mode::Estimated { expected, overhead } => {
                write!(f, "estimated:{expected}:{overhead}")
            }
        }
    }
}

impl FromStr for Mode {
    type Err = String;

    fn from_str(text: &str) -> Result<Mode, String> {
        let parts: Vec<&str> = text.split(':').collect();
        let (mode, rate, overhead) = match parts[..] {
            ["unlimited"] => (3, "0", "0"),
            ["max", rate] => (2, rate, "0"),
            ["input", rate, overhead] => (0, rate, overhead),
            ["estimated", rate, overhead] => (1, rate, overhead),
            _ => return Err(format!("'{text}' is no mode")),
        };
        Mode::of(mode, number(rate)?, number(overhead)?).ok_or(format!("'{text}' is no mode"))
    }
}

impl Field for Settings {
    fn write(&self, f: &mut Formatter) -> fmt::Result {
        write!(
            f,
            " first={} size={} buffer={} window={} latency={} overhead={} id={:#010x} mode={}",
            self.first, self.size, self.buffer, self.window, self.latency, self.overhead, self.id, self.mode
        )
    }

    fn read(words: &mut Words, _: &str) -> Result<Self, String> {
        let mut settings = Settings::default();
        for word in words.rest.by_ref() {
            let (key, value) = word.split_once('=').ok_or(format!("'{word}' is no setting: name=value"))?;
            match key {
                "first" => settings.first = number(value)?,
                "size" => settings.size = number(value)?,
                "buffer" => settings.buffer = number(value)?,
                "window" => settings.window = number(value)?,
                "latency" => settings.latency = number(value)?,
                "overhead" => settings.overhead = number(value)?,
                "id" => settings.id = number(value)?,
                "mode" => settings.mode = value.parse()?,
                other => return Err(format!("there is no setting '{other}'")),
            }
        }
        Ok(settings)
    }

    fn put(&self, numbers: &mut Vec<u64>) -> Option<()> {
        let (mode, rate, overhead) = self.mode.numbers();
        numbers.extend([
            pair(self.first, self.size),
            pair(self.buffer, self.window),
            pair(self.latency.try_into().ok()?, self.overhead),
            pair(self.id, mode),
            rate,
            overhead,
        ]);
        Some(())
    }

    fn fetch(numbers: &mut Taken) -> Option<Self> {
        let (first, size) = apart(numbers.number()?);
        let (buffer, window) = apart(numbers.number()?);
        let (latency, overhead) = apart(numbers.number()?);
        let (id, mode) = apart(numbers.number()?);
        Some(Settings {
            first,
            size,
            buffer,
            window,
            latency: u64::from(latency),
            overhead,
            id,
            mode: Mode::of(mode, numbers.number()?, numbers.number()?)?,
        })
    }
}
