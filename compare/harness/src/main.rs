//! The comparison of a sender with the Rust. compare/run calls it and says how.

mod answering;
mod bends;
mod domain;
mod exhaustive;
mod explore;
mod generate;
mod generate_faulty;
mod generate_leaves;
mod generate_losses;
mod generate_start;
mod leaf_books;
mod leaf_trial;
mod modes;
mod note;
mod panics;
mod party;
mod random;
mod reach;
mod records;
mod rng;
mod sample;
mod scores;
mod script;
mod session_refusals;
mod sessions;
mod shrink;
mod stored;
mod trial;

use std::{env, fs, path::Path, process::ExitCode, time::Instant};

use calls::{Area, Call};
use entries::Bend;
use party::{REPAIRED, UNMODIFIED};

/// A faulty script or command line.
const FAULTY: u8 = 2;

fn main() -> ExitCode {
    panics::keep_panics();
    let words: Vec<String> = env::args().skip(1).collect();
    let words: Vec<&str> = words.iter().map(String::as_str).collect();
    match words[..] {
        ["short", seconds] => short(seconds, "0"),
        ["short", seconds, seed] => short(seconds, seed),
        ["full"] => full("0"),
        ["full", seed] => full(seed),
        ["scripts"] => judged(false, modes::scripts),
        ["findings"] => judged(false, || {
            explore::all();
            Ok(())
        }),
        ["bend", name] => judged(false, || modes::bend(name)),
        ["gen", seed, count] => generated("sender", seed, count),
        ["gen", seed, count, area] => generated(area, seed, count),
        ["sample", seed, count] => made(seed, count, |seed, count| sample::make(seed, count as usize)),
        ["sessions", seed, count] => made(seed, count, sessions::make),
        ["sample-check"] => judged(false, || Ok(())),
        ["script", file] => answer(file, "repaired"),
        ["script", file, "--copy", copy] => answer(file, copy),
        ["answers", file] => match calls_of(file) {
            Ok(calls) => {
                print!("{}", stored::sections(&calls));
                ExitCode::SUCCESS
            }
            Err(fault) => faulty(&fault),
        },
        _ => faulty("too many words or too few: compare/run alone lists its modes"),
    }
}

fn short(seconds: &str, seed: &str) -> ExitCode {
    match (seconds.parse(), seed.parse()) {
        (Ok(seconds), Ok(seed)) => judged(false, || modes::short(seconds, seed)),
        _ => faulty("SECONDS and SEED are whole numbers"),
    }
}

fn full(seed: &str) -> ExitCode {
    match seed.parse() {
        Ok(seed) => judged(true, || modes::full(seed)),
        Err(_) => faulty("SEED is a whole number"),
    }
}

fn generated(area: &str, seed: &str, count: &str) -> ExitCode {
    match (Area::named(area), seed.parse(), count.parse()) {
        (Some(area), Ok(seed), Ok(count)) => status(modes::generate(area, seed, count)),
        (None, _, _) => faulty("AREA is sender, timer, timers, pacing, split or header"),
        _ => faulty("SEED and COUNT are whole numbers"),
    }
}

fn made(seed: &str, count: &str, make: impl Fn(u64, u64) -> Result<(), String>) -> ExitCode {
    match (seed.parse(), count.parse()) {
        (Ok(seed), Ok(count)) => status(make(seed, count).map_err(|text| println!("{text}"))),
        _ => faulty("SEED and COUNT are whole numbers"),
    }
}

fn faulty(text: &str) -> ExitCode {
    eprintln!("compare: {text}");
    ExitCode::from(FAULTY)
}

fn status(outcome: Result<(), ()>) -> ExitCode {
    match outcome {
        Ok(()) => ExitCode::SUCCESS,
        Err(()) => ExitCode::FAILURE,
    }
}

/// The work, after the checks of what it rests on, and the time it took.
fn judged(slow: bool, work: impl FnOnce() -> Result<(), ()>) -> ExitCode {
    let start = Instant::now();
    let outcome = compiled_files()
        .and_then(|()| stored::check(slow))
        .and_then(|()| sample::check())
        .and_then(|()| sessions::check());
    let outcome = match outcome {
        Ok(()) => work(),
        Err(text) => {
            println!("{text}");
            Err(())
        }
    };
    println!("time taken: {:.1} s", start.elapsed().as_secs_f64());
    status(outcome)
}

/// The files compiled into the unmodified copy are those in the folder that
/// PHEL_FILES names, byte by byte; the repaired copy differs in one of them.
fn compiled_files() -> Result<(), String> {
    let folder = env::var("PHEL_FILES").map_err(|_| "PHEL_FILES is not set")?;
    let mut repaired = Vec::new();
    let pairs = phel_unmodified::FILES.iter().zip(phel_repaired::FILES);
    for ((name, bytes), (_, repaired_bytes)) in pairs {
        let path = Path::new(&folder).join(name);
        let there = fs::read(&path).map_err(|fault| format!("{}: {fault}", path.display()))?;
        if there != *bytes {
            return Err(format!("{name} was compiled from other bytes: build again"));
        }
        if *bytes != repaired_bytes {
            repaired.push(*name);
        }
    }
    if repaired != ["protocol/sender/buffer.rs"] {
        return Err(format!("the repaired copy differs in {repaired:?}"));
    }
    println!("files compiled as they stand: {}; repaired: buffer.rs", phel_unmodified::FILES.len());
    Ok(())
}

/// The calls of a script file, each with its line.
fn calls_of(file: &str) -> Result<Vec<(usize, Call)>, String> {
    let bytes = fs::read(file).map_err(|fault| format!("{file}: {fault}"))?;
    let text = String::from_utf8(bytes).map_err(|fault| {
        let read = &fault.as_bytes()[..fault.utf8_error().valid_up_to()];
        let line = 1 + read.iter().filter(|byte| **byte == b'\n').count();
        format!("{file} line {line}: not UTF-8")
    })?;
    script::read(&text).map_err(|(line, fault)| format!("{file} line {line}: {fault}"))
}

fn answer(file: &str, copy: &str) -> ExitCode {
    let party = match copy {
        "unmodified" => UNMODIFIED,
        "repaired" => REPAIRED,
        "model" => party::model(),
        "rattle" => match party::proved(Bend::None) {
            Some(party) => party,
            None => return faulty("the proved library is not at hand (rt)"),
        },
        other => return faulty(&format!("there is no copy '{other}'")),
    };
    let calls = match calls_of(file) {
        Ok(calls) => calls,
        Err(fault) => return faulty(&fault),
    };
    let (answers, panic) = answering::answers(party, &calls);
    print!("{answers}");
    match panic {
        None => ExitCode::SUCCESS,
        Some(text) => {
            println!("panic");
            eprintln!("compare: {file} {text}");
            ExitCode::FAILURE
        }
    }
}
