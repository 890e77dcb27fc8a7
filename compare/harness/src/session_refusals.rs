//! The end of the stored sessions: refusals that no script of the comparison
//! reaches within the program's areas, with the answers that document 01 gives.

use calls::Numbers;

fn numbers(given: &[u64]) -> Numbers {
    let mut all = Numbers::default();
    all[..given.len()].copy_from_slice(given);
    all
}

/// A sender for `buffer` packets of four bytes.
fn new(buffer: u64) -> Numbers {
    numbers(&[1, 15 + (4 << 32), buffer + (8 << 32), 0, 3 << 32])
}

/// So many bytes at 1,000.
fn message(length: u64) -> Numbers {
    numbers(&[2, 1000, 1000, length, 0])
}

/// Each call with its answer: an area too short, a kept number out of its
/// range, a message too long, a byte count at its end and one below it.
fn all() -> [(Numbers, &'static str); 10] {
    [
        (new(65), "done"),
        (message(10), "refused 2 BadStore"),
        (new(4), "done"),
        (numbers(&[8, 1 << 26]), "done"),
        (message(10), "refused 3 BadState"),
        (new(4), "done"),
        (numbers(&[9, (1 << 62) - 10]), "done"),
        (message(1_048_577), "refused 5 TooLong"),
        (message(10), "refused 6 CountFull"),
        (message(9), "made 3 removed 0 bytes 0 period -"),
    ]
}

/// The records, which end the program's input.
pub fn records() -> Vec<u8> {
    let bytes = |(call, _): (Numbers, &str)| call.into_iter().flat_map(u64::to_le_bytes);
    all().into_iter().flat_map(bytes).collect()
}

/// The answers, a line each.
pub fn lines() -> String {
    all().map(|(_, line)| format!("{line}\n")).concat()
}
