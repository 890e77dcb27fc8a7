//! The stored sessions: scripts of the sender as records (crates/sessions/stdin)
//! and the repaired copy's answers (crates/sessions/stdout), which
//! crates/sessions must print. They begin with document 01's ten bytes and end
//! with refusals that the Rust doesn't give.

use calls::{Area, Call, SenderCall, Settings, State};

use crate::{
    answering,
    generate::Generator,
    modes,
    panics::guarded,
    party::{bent_model, model, REPAIRED},
    records::{put, same, stored, written},
    scores::Scores,
    script, session_refusals as refusals,
    trial::Source,
};

const TEN_BYTES: &str = "\
new first=15 size=4 buffer=4 window=8
message 1000 1000 10
run 1000 1
payload 15
payload 17
payload 18
reports
";

const FOLDER: &str = "PHEL_SESSIONS";
/// The largest capacity and packet size that the program's areas have room for.
const CAPACITY_MOST: u32 = 64;
const SIZE_MOST: u32 = 64;
/// Of each generated script the first so many calls.
const SCRIPT: usize = 24;

/// Whether the areas have room, or the settings are refused before they count.
fn fit(settings: &Settings) -> bool {
    let small = settings.buffer <= CAPACITY_MOST && settings.size <= SIZE_MOST;
    small || model().sender(settings).is_err()
}

/// Plays a script on all senders; gives its calls that were made.
fn played(settings: Settings, source: Source, scores: &mut Scores) -> Result<Vec<Call>, String> {
    let calls = modes::parties().play(settings, source, scores);
    let calls = calls.map_err(|failure| failure.text)?;
    let new = [SenderCall::New { settings }].into_iter();
    Ok(new.chain(calls).map(Call::Sender).collect())
}

/// The calls of a generated script that have a record; none where the areas
/// have no room.
fn generated(seed: u64, scores: &mut Scores) -> Result<Vec<Call>, String> {
    let mut generator = Generator::new(seed);
    let settings = generator.settings;
    if !fit(&settings) {
        return Ok(Vec::new());
    }
    let mut left = SCRIPT;
    let source = &mut |state: &State| {
        left = left.checked_sub(1)?;
        loop {
            let call = generator.next(state)?;
            if call.numbers().is_some() {
                return Some(call);
            }
        }
    };
    played(settings, source, scores)
}

fn ten_bytes(scores: &mut Scores) -> Result<Vec<Call>, String> {
    let calls = script::read(TEN_BYTES).map_err(|(line, fault)| format!("line {line}: {fault}"))?;
    let calls = calls.into_iter().filter_map(|(_, call)| match call {
        Call::Sender(call) => Some(call),
        Call::Leaf(_) => None,
    });
    let mut calls = calls.peekable();
    let settings = match calls.next() {
        Some(SenderCall::New { settings }) => settings,
        _ => return Err("the ten bytes begin with no new".to_string()),
    };
    played(settings, &mut |_: &State| calls.next(), scores)
}

/// Of each of the sender's bent rules, whether the answers show it.
fn noticed(calls: &[Call]) -> Vec<bool> {
    let now = answering::plain(REPAIRED, calls);
    let shows = |rule: entries::Rule| {
        let bent = guarded(|| answering::plain(bent_model(rule.number), calls));
        bent.map_or(false, |bent| bent != now)
    };
    let rules = entries::rules().into_iter();
    let of_sender = rules.filter(|rule| rule.area == Area::Sender);
    of_sender.map(shows).collect()
}

fn numbers(call: &Call) -> Option<calls::Numbers> {
    match call {
        Call::Sender(call) => call.numbers(),
        Call::Leaf(_) => None,
    }
}

fn store(calls: &[Call]) -> Result<(), String> {
    let records = written(calls.iter().map(numbers))?;
    let lines = answering::plain(REPAIRED, calls) + &refusals::lines();
    put(FOLDER, &[records, refusals::records()].concat(), &lines)
}

/// Makes the sessions anew: the ten bytes, then of so many generated scripts
/// those that reach or notice what none before them did.
pub fn make(seed: u64, count: u64) -> Result<(), String> {
    let mut scores = Scores::default();
    let mut calls = ten_bytes(&mut scores)?;
    let mut reached = scores.reached;
    let mut shown = noticed(&calls);
    let mut scripts = 1;
    for seed in seed..seed + count {
        let mut scores = Scores { reached: reached.clone(), ..Scores::default() };
        let script = generated(seed, &mut scores)?;
        let more = scores.reached;
        let shows: Vec<bool> = noticed(&script).into_iter().zip(&shown).map(|(a, b)| a || *b).collect();
        if more.kinds() > reached.kinds() || shows != shown {
            calls.extend(script);
            (reached, shown) = (more, shows);
            scripts += 1;
        }
    }
    println!("reached by the sessions:");
    let missed = reached.print_sender();
    let unnoticed = shown.iter().filter(|shown| !**shown).count();
    println!("not reached {missed}, bent rules of {} not noticed {unnoticed}", shown.len());
    if missed + unnoticed > 0 {
        return Err("nothing written".to_string());
    }
    store(&calls)?;
    println!("sessions: {} calls in {scripts} scripts, answered by the repaired copy", calls.len());
    check()
}

/// Holds the stored answers against what the Rust answers now.
pub fn check() -> Result<(), String> {
    let end = refusals::records();
    let calls = stored(FOLDER, &end, |numbers| SenderCall::of(numbers).map(Call::Sender))?;
    let now = answering::plain(REPAIRED, &calls) + &refusals::lines();
    same(FOLDER, "sessions", &now)?;
    println!("stored sessions answered as stored: {} calls", calls.len());
    Ok(())
}
