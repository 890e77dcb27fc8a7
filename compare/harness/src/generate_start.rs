//! Where random scripts start: settings and clock, near their limits and near
//! the wraps of numbers and stamps.

use calls::{Mode, Settings};

use crate::rng::Rng;

pub const NUMBERS: u64 = 1 << 31;
pub const STAMPS: u64 = 1 << 32;
pub const TIMES: u64 = 1 << 48;

pub fn clock(rng: &mut Rng) -> u64 {
    match rng.below(8) {
        0 => 0,
        1 => rng.below(2_000_000),
        2..=4 => STAMPS - rng.below(3_000_000),
        5 => STAMPS * rng.within(1, 60_000) - rng.below(3_000_000),
        6 => TIMES - rng.within(1, 20_000_000),
        _ => rng.below(TIMES - (1 << 40)),
    }
}

fn first(rng: &mut Rng) -> u64 {
    match rng.below(6) {
        0 => rng.below(20),
        1..=2 => NUMBERS - rng.within(1, 40),
        3 => 16 * rng.below(NUMBERS / 16) + 15,
        _ => rng.below(NUMBERS),
    }
}

fn size(rng: &mut Rng, large: bool) -> u64 {
    match rng.below(40) {
        _ if large => rng.within(1, 3),
        0 => 1_456,
        1 => rng.within(1, 1_456),
        _ => rng.within(1, 9),
    }
}

fn buffer(rng: &mut Rng, large: bool) -> u64 {
    match rng.below(10) {
        _ if large => 8_192,
        0 => 0,
        1..=6 => rng.within(1, 8),
        _ => rng.within(9, 40),
    }
}

fn window(rng: &mut Rng, buffer: u64) -> u64 {
    match rng.below(8) {
        0 => 0,
        1..=3 => rng.below(buffer + 3),
        4 => buffer,
        _ => rng.pick(&[8_192, 65_535]),
    }
}

fn latency(rng: &mut Rng) -> u64 {
    match rng.below(8) {
        0 => 0,
        1..=3 => 120_000,
        4 => rng.within(799_990, 800_010),
        5 => 1_000_000,
        6 => rng.below(3_000_000),
        _ => rng.pick(&[65_535_000, 4_000_003]),
    }
}

/// The order of the draws is part of what a seed stands for.
pub fn settings(rng: &mut Rng, large: bool) -> Settings {
    let first = first(rng);
    let size = size(rng, large);
    let buffer = buffer(rng, large);
    let window = window(rng, buffer);
    let latency = latency(rng);
    let mut settings = Settings {
        first: first as u32,
        size: size as u32,
        buffer: buffer as u32,
        window: window as u32,
        latency,
        overhead: rng.pick(&[0, 16, 44, 128]),
        id: rng.next() as u32,
        mode: mode(rng),
    };
    if rng.once_in(100) {
        spoil(rng, &mut settings);
    }
    settings
}

/// Puts one setting just outside its range.
fn spoil(rng: &mut Rng, settings: &mut Settings) {
    match rng.below(9) {
        0 => settings.first = 1 << 31,
        1 => settings.size = 0,
        2 => settings.size = 1_457,
        3 => settings.buffer = 8_193,
        4 => settings.window = 65_536,
        5 => settings.latency = 65_535_001,
        6 => settings.overhead = 129,
        7 => settings.mode = Mode::Max((1 << 40) + 1),
        _ => settings.mode = Mode::Input { rate: 1, overhead: 10_001 },
    }
}

pub fn mode(rng: &mut Rng) -> Mode {
    let rate = match rng.below(6) {
        0 => 0,
        1 => rng.below(100),
        2 => rng.within((1 << 40) - 3, 1 << 40),
        _ => rng.below(10_000_000),
    };
    let overhead = rng.pick(&[0, 25, 33, 100, 10_000]);
    match rng.below(4) {
        0 => Mode::Input { rate, overhead },
        1 => Mode::Max(rate),
        2 => Mode::Unlimited,
        _ => Mode::Estimated { expected: rate, overhead },
    }
}
