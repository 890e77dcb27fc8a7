//! Random loss reports.

use calls::{Report, SenderCall, State, AMPLE};

use crate::{generate_start::NUMBERS, rng::Rng};

pub fn report(rng: &mut Rng, large: bool, state: &State) -> SenderCall {
    let items = match rng.below(12) {
        0 => 0,
        1 => rng.within(5, 20),
        _ => rng.within(1, 4),
    };
    let mut words: Vec<u32> = Vec::new();
    for _ in 0..items {
        let after = words.last().map(|word| (u64::from(*word) + 1) % NUMBERS);
        let first = lost_number(rng, state, after);
        let more = match rng.below(8) {
            0..=3 => None,
            4 => Some(0),
            5 if large => Some(rng.below(6_000)),
            5 if rng.once_in(50) => Some(rng.below(3_000)),
            5 => Some(rng.below(40)),
            _ => Some(rng.below(6)),
        };
        match more {
            None => words.push(first as u32),
            Some(more) => {
                words.push((first + NUMBERS) as u32);
                words.push(((first + more) % NUMBERS) as u32);
            }
        }
    }
    let room = if rng.once_in(20) { 3 * items } else { AMPLE };
    let report = Report { words, room };
    SenderCall::Nak { report }
}

/// A number near the buffer, near half the numbers away, or one after the
/// last in the report.
fn lost_number(rng: &mut Rng, state: &State, after: Option<u64>) -> u64 {
    let next = u64::from(state.next_unsent);
    let front = state.packets.first().map_or(next, |p| u64::from(p.number));
    let sent = (next + NUMBERS - front) % NUMBERS;
    let number = match rng.below(12) {
        0..=1 => after.unwrap_or(front),
        2 => front + NUMBERS - rng.within(1, 4),
        3 => next + rng.below(4),
        4 => next + NUMBERS / 2 + rng.below(4) - 2,
        5 => state.lost.first().map_or(front, |lost| u64::from(*lost)),
        _ => front + rng.below(sent + 1),
    };
    number % NUMBERS
}
