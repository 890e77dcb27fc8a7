//! The files of a program's stored calls and answers: stdin has records of 64
//! bytes, eight numbers with the lowest byte first, and stdout what it must print.

use std::{env, fs, path::PathBuf};

use calls::Numbers;

const SIZE: usize = 64;

/// The records' bytes, where all calls have one.
pub fn written(records: impl Iterator<Item = Option<Numbers>>) -> Result<Vec<u8>, String> {
    let records: Option<Vec<Numbers>> = records.collect();
    let records = records.ok_or("a call has no record")?;
    let bytes = records.iter().flatten().flat_map(|n| n.to_le_bytes());
    Ok(bytes.collect())
}

fn numbers(bytes: &[u8]) -> Option<Numbers> {
    let mut all = Numbers::default();
    if bytes.len() != SIZE {
        return None;
    }
    for (number, bytes) in all.iter_mut().zip(bytes.chunks(8)) {
        *number = u64::from_le_bytes(bytes.try_into().ok()?);
    }
    Some(all)
}

/// A file of the folder that the variable names.
fn path(variable: &str, name: &str) -> Result<PathBuf, String> {
    env::var(variable).map(|folder| PathBuf::from(folder).join(name)).map_err(|_| format!("{variable} is not set"))
}

/// Writes a program's calls and their answers.
pub fn put(variable: &str, records: &[u8], lines: &str) -> Result<(), String> {
    for (name, bytes) in [("stdin", records), ("stdout", lines.as_bytes())] {
        let path = path(variable, name)?;
        fs::write(&path, bytes).map_err(|fault| format!("{}: {fault}", path.display()))?;
    }
    Ok(())
}

fn get(variable: &str, name: &str) -> Result<Vec<u8>, String> {
    let path = path(variable, name)?;
    fs::read(&path).map_err(|fault| format!("{}: {fault}", path.display()))
}

/// The calls that a program has stored, but for those at its end.
pub fn stored<T>(variable: &str, end: &[u8], read: impl Fn(&Numbers) -> Option<T>) -> Result<Vec<T>, String> {
    let all = get(variable, "stdin")?;
    let records = all.strip_suffix(end).ok_or("stdin: it ends otherwise")?;
    let call = |(index, bytes): (usize, &[u8])| {
        let call = numbers(bytes).and_then(|numbers| read(&numbers));
        call.ok_or(format!("stdin: record {index} is no call"))
    };
    records.chunks(SIZE).enumerate().map(call).collect()
}

/// Holds the answers that a program has stored against those given now.
pub fn same(variable: &str, what: &str, now: &str) -> Result<(), String> {
    let stored = get(variable, "stdout")?;
    if now.as_bytes() == stored {
        return Ok(());
    }
    let stored = String::from_utf8_lossy(&stored);
    let at = now.lines().zip(stored.lines()).position(|(a, b)| a != b);
    let at = at.map_or(0, |at| at + 1);
    Err(format!("DIFFERENCE from the stored {what} at line {at}"))
}
