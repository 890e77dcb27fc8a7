//! Calls that document 01 refuses by their arguments.

use calls::{Ack, Payload, Report, Rtt, Run, SenderCall, State, AMPLE};

use crate::{
    generate_start::{NUMBERS, TIMES},
    rng::Rng,
};

pub fn faulty(rng: &mut Rng, clock: u64, state: &State) -> SenderCall {
    let number = state.next_unsent;
    match rng.below(10) {
        0 => over_time(rng, clock),
        1 if rng.once_in(200) => {
            SenderCall::Message { time: clock, now: clock, payload: Payload::Seeded { length: 1_048_577, seed: 0 } }
        }
        2 => SenderCall::Payload { number: number + (1 << 31) },
        3 => over_ack(rng, number + (1 << 31), 0),
        4 => over_ack(rng, number, 1),
        5 => nak(vec![number; 513], AMPLE),
        6 => nak(vec![number], rng.below(3)),
        _ => bad_words(rng, number),
    }
}

fn nak(words: Vec<u32>, room: u64) -> SenderCall {
    let report = Report { words, room };
    SenderCall::Nak { report }
}

fn over_time(rng: &mut Rng, clock: u64) -> SenderCall {
    let over = TIMES + rng.below(3);
    let payload = Payload::Seeded { length: 1, seed: 0 };
    let (time, now) = match rng.below(3) {
        0 => (over, clock),
        1 => (clock, over),
        _ => {
            let run = Run { now: over, budget: 1, draining: false, room: AMPLE };
            return SenderCall::Run { run };
        }
    };
    SenderCall::Message { time, now, payload }
}

fn over_ack(rng: &mut Rng, number: u32, over: u32) -> SenderCall {
    let (mean, variance) = if rng.once_in(2) { (100_000_000 + over, 0) } else { (0, 100_000_000 + over) };
    let ack = Ack { number, full: None, rtt: Some(Rtt { mean, variance }) };
    SenderCall::Ack { ack }
}

fn bad_words(rng: &mut Rng, number: u32) -> SenderCall {
    let open = number | 1 << 31;
    let far = ((u64::from(number) + NUMBERS / 2) % NUMBERS) as u32;
    let mut words = vec![number; rng.below(3) as usize];
    match rng.below(4) {
        0 => words.push(open),
        1 => words.extend([open, open]),
        2 => words.extend([open, far]),
        _ => words.extend([open, far, open]),
    }
    nak(words, AMPLE)
}
