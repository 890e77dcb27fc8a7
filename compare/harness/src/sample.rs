//! The stored sample: calls of the leaves as records (crates/replay/stdin) and
//! the repaired copy's answers (crates/replay/stdout), which crates/replay must
//! print. A call that document 01 refuses isn't given to the Rust; its line has
//! the refusal's number and the books as they were.

use calls::{Answer, Area, Call, LeafCall, Leaves, PacingState, TimerState, TimersState, AREAS};

use crate::{
    domain::LONGEST_PERIOD,
    leaf_books::LeafBooks,
    modes,
    party::{model, REPAIRED},
    random,
    reach::Reached,
    records::{put, same, stored, written},
    script,
};

const FOLDER: &str = "PHEL_SAMPLE";
/// A message that splits into more packets makes too long a line.
const MOST_PACKETS: u32 = 40;
/// Of each generated script the first so many calls, so that many are begun.
const SCRIPT: usize = 24;

fn timer(t: TimerState) -> String {
    format!("{} {}", t.origin, t.period)
}

fn timers(t: TimersState) -> String {
    let all: Vec<String> = t.all().into_iter().map(timer).collect();
    format!("{} {}", t.exp_count, all.join(" "))
}

fn pacing(p: PacingState) -> String {
    format!(
        "{} {} {} {} {} {} {} {}",
        u8::from(p.next.is_some()),
        p.next.unwrap_or(0),
        p.packets,
        p.packet_mean,
        p.packet_variance,
        p.bytes,
        p.byte_mean,
        p.byte_variance
    )
}

/// The refusal's number, and what the answer tells.
fn told(answer: &Answer) -> String {
    match answer {
        Answer::Refused(refusal) => format!("{} 0", refusal.number),
        Answer::Fired(periods) => format!("0 {}", periods.unwrap_or(0)),
        Answer::Period(period) => format!("0 {}", period.unwrap_or(0)),
        Answer::At(at) => format!("0 {at}"),
        Answer::Pieces(pieces) => {
            let all = pieces.iter().map(|p| format!(" {} {}", p.place, p.length));
            format!("0 {}{}", pieces.len(), String::from_iter(all))
        }
        Answer::Header(bytes) => {
            let all: Vec<String> = bytes.iter().map(u8::to_string).collect();
            all.join(" ")
        }
        _ => "0 0".to_string(),
    }
}

/// The line of a call: its leaf, what it answers and, of a call that may change
/// them, the books after it. None where there is nothing that it speaks of. The
/// Rust isn't given what the model refuses.
fn line(call: &LeafCall, rust: &mut dyn Leaves, document: &mut dyn Leaves) -> Option<String> {
    let refused = document.call(call);
    let answer = match refused.refused() {
        Some(_) => refused,
        None => rust.call(call),
    };
    if matches!(answer, Answer::Period(Some(period)) if period > LONGEST_PERIOD) {
        return None;
    }
    let told = told(&answer);
    use LeafCall::*;
    Some(match (call, LeafBooks::read(call, rust)) {
        (TimerNext {}, _) => match rust.call(&TimerState {}) {
            Answer::Timer(books) => format!("timer next {told} 0 {}", books.period),
            _ => return None,
        },
        (TimersWake { .. }, _) => format!("timers wake {told}"),
        (Split { .. }, _) => format!("split {told}"),
        (Header { .. }, _) => format!("header {told}"),
        (_, Some(Answer::Timer(books))) => format!("timer {told} {}", timer(books)),
        (_, Some(Answer::Timers(books))) => format!("timers {told} {}", timers(books)),
        (_, Some(Answer::Pacing(books))) => format!("pacing {told} {}", pacing(books)),
        _ => return None,
    })
}

/// The lines of all calls, by the repaired copy; none where one has no line.
fn lines(calls: &[LeafCall]) -> Option<String> {
    let (mut rust, mut document) = (REPAIRED.leaves(), model().leaves());
    let mut text = String::new();
    for call in calls {
        text += &line(call, &mut *rust, &mut *document)?;
        text.push('\n');
    }
    Some(text)
}

/// Of one leaf, so many calls inside the domain from generated scripts.
fn generated(area: Area, seed: u64, count: usize) -> Result<Vec<LeafCall>, String> {
    let mut calls = Vec::new();
    for seed in seed.. {
        let reached = &mut Reached::default();
        let script = random::leaf_script(&modes::parties(), Some(REPAIRED), (area, seed), reached);
        let script = script.map_err(|failure| failure.text)?;
        // Its first call makes the leaf; where that is refused there is none.
        if lines(&script[..1]).is_some() {
            calls.extend(script.into_iter().filter(few).take(SCRIPT));
        }
        if calls.len() >= count {
            break;
        }
    }
    calls.truncate(count);
    Ok(calls)
}

/// Whether a message is split into few packets, or refused.
fn few(call: &LeafCall) -> bool {
    match call {
        LeafCall::Split { size, length } if model().leaves().call(call).refused().is_none() => {
            *length <= MOST_PACKETS * size
        }
        _ => true,
    }
}

/// What the calls reach, counted as in the comparison; a count of zero fails.
fn reached(calls: &[LeafCall]) -> Result<(), String> {
    let mut reached = Reached::default();
    let mut rest = calls.iter().cloned();
    let source = &mut |_: &LeafBooks| rest.next();
    let played = modes::parties().play_leaves(Some(REPAIRED), source, &mut reached);
    let played = played.map_err(|failure| failure.text)?;
    if played.len() < calls.len() {
        return Err("a call of the sample lies outside the domain".to_string());
    }
    println!("reached by the sample:");
    match reached.print_leaves() {
        0 => Ok(()),
        missed => Err(format!("the sample misses {missed}: nothing written")),
    }
}

/// The calls of the script that the sample begins with.
fn boundaries() -> Result<Vec<LeafCall>, String> {
    let calls = script::read(include_str!("../../scripts/boundaries.script"));
    let calls = calls.map_err(|(line, fault)| format!("boundaries.script line {line}: {fault}"))?;
    let leaf = |(line, call): (usize, Call)| match call {
        Call::Leaf(call) => Ok(call),
        _ => Err(format!("boundaries.script line {line}: no call of a leaf")),
    };
    calls.into_iter().map(leaf).collect()
}

/// Makes the sample anew: the boundaries, then of each leaf so many calls.
pub fn make(seed: u64, count: usize) -> Result<(), String> {
    let mut calls = boundaries()?;
    for (area, _) in &AREAS[1..] {
        calls.extend(generated(*area, seed, count)?);
    }
    reached(&calls)?;
    let lines = lines(&calls).ok_or("a call of the sample has no line")?;
    let records = written(calls.iter().map(LeafCall::numbers))?;
    put(FOLDER, &records, &lines)?;
    println!("sample: {} calls, answered by the repaired copy", calls.len());
    Ok(())
}

/// Holds the stored answers against what the Rust answers now.
pub fn check() -> Result<(), String> {
    let calls = stored(FOLDER, &[], LeafCall::of)?;
    let now = lines(&calls).ok_or("stdin: a call has no line")?;
    same(FOLDER, "sample", &now)?;
    println!("stored sample answered as stored: {} calls", calls.len());
    Ok(())
}
