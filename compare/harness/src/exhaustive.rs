//! Every script of four calls from a small alphabet, and so every shorter one
//! as its beginning.

use calls::{Ack, Mode, Payload, Report, Rtt, Run, SenderCall, Settings, State, AMPLE};

use crate::{
    scores::{Failure, Scores},
    trial::Parties,
};

const LENGTH: u32 = 4;

/// Settings at the wrap, and at a number before one that divides by 16.
fn starts() -> [Settings; 3] {
    let small = Settings {
        first: (1 << 31) - 1,
        size: 2,
        buffer: 2,
        window: 1,
        latency: 120_000,
        overhead: 16,
        id: 7,
        mode: Mode::Unlimited,
    };
    let single = Settings { first: 15, buffer: 0, window: 0, ..small };
    let roomy = Settings { first: 15, buffer: 4, window: 8, latency: 1_000_000, ..small };
    [small, single, roomy]
}

fn message(time: u64, length: u32) -> SenderCall {
    SenderCall::Message { time, now: time, payload: Payload::Seeded { length, seed: 3 } }
}

fn ack(number: u32, full: Option<u32>, rtt: Option<Rtt>) -> SenderCall {
    let ack = Ack { number, full, rtt };
    SenderCall::Ack { ack }
}

fn nak(words: Vec<u32>) -> SenderCall {
    let report = Report { words, room: AMPLE };
    SenderCall::Nak { report }
}

fn run(now: u64, budget: u32, draining: bool) -> SenderCall {
    let run = Run { now, budget, draining, room: AMPLE };
    SenderCall::Run { run }
}

fn alphabet(settings: &Settings) -> Vec<SenderCall> {
    let number = |ahead: u32| (settings.first + ahead) % (1 << 31);
    let quick = Rtt { mean: 10, variance: 1 };
    let range = number(0) | 1 << 31;
    vec![
        message(1_000, 0),
        message(1_000, 4),
        message(200_000, 7),
        message(1_200_000, 2),
        ack(number(0), None, Some(quick)),
        ack(number(1), Some(1), None),
        ack(number(2), Some(0), Some(quick)),
        ack(number(3), None, None),
        nak(vec![number(0)]),
        nak(vec![range, number(2)]),
        nak(vec![number(1), number(0)]),
        run(1_000, 1, false),
        run(1_000, 3, false),
        run(21_015, 1, true),
        run(321_001, 2, false),
        run(1_001_000, 2, true),
        run(1_001_001, 1, false),
        run(1_500_000, 9, true),
        SenderCall::Reports {},
        SenderCall::Payload { number: number(0) },
    ]
}

/// Plays them all, or to the first that fails.
pub fn all(parties: &Parties, scores: &mut Scores) -> Result<(), Failure> {
    for settings in starts() {
        let alphabet = alphabet(&settings);
        let letters = alphabet.len();
        for code in 0..letters.pow(LENGTH) {
            let mut rest = code;
            let mut left = LENGTH;
            let mut source = |_: &State| {
                let call = &alphabet[rest % letters];
                rest /= letters;
                left = left.checked_sub(1)?;
                Some(call.clone())
            };
            parties.play(settings, &mut source, scores)?;
        }
    }
    Ok(())
}
