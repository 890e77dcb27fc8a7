//! Goes on with the unmodified copy after the first removal, where it is no
//! longer owed to agree, and shows each kind of difference from the repaired
//! copy with a small script.

use std::collections::BTreeMap;

use calls::{call_sender, Answer, SenderCall, Settings, State};

use crate::{
    domain,
    generate::Generator,
    panics::guarded,
    party::{model, Party, REPAIRED, UNMODIFIED},
    scores::written,
    shrink::shrink,
};

const SCRIPTS: u64 = 30_000;

/// A kind of difference, and the two answers.
struct Divergence {
    kind: String,
    unmodified: String,
    repaired: String,
}

/// The name of a call, for the kind.
fn name(call: &SenderCall) -> String {
    let text = call.to_string();
    text.split(' ').next().unwrap_or("").to_string()
}

/// An answer without its figures; of a run, the first record that the other
/// doesn't have.
fn outline(answer: &Answer, other: &Answer) -> String {
    match (answer, other) {
        (Answer::Ran(ran), Answer::Ran(other)) => {
            let mut pairs = ran.records.iter().zip(&other.records);
            let same = pairs.position(|(a, b)| a != b);
            let at = same.unwrap_or(ran.records.len().min(other.records.len()));
            let kind = ran.records.get(at).map(|record| record[0].to_string());
            format!("kind {}", kind.unwrap_or("-".to_string()))
        }
        (Answer::Refused(refusal), _) => refusal.name().to_string(),
        _ => "other figures".to_string(),
    }
}

/// What ends the play: the first difference, or a panic of the unmodified copy.
#[derive(Clone, Copy, PartialEq, Eq)]
enum Until {
    Difference,
    Panic,
}

fn diverge(
    settings: &Settings,
    until: Until,
    calls: &mut dyn FnMut(&State) -> Option<SenderCall>,
) -> Option<Divergence> {
    let sender = |party: Party| party.sender(settings).ok();
    let (mut a, mut b) = (sender(UNMODIFIED)?, sender(REPAIRED)?);
    let mut document = sender(model())?;
    let (mut state, mut runs) = (State::default(), None);
    b.state(&mut state);
    while let Some(call) = calls(&state) {
        if !domain::admits(&call, &state, settings, runs) {
            continue;
        }
        if call_sender(&mut *document, &call).refused().is_some() {
            continue;
        }
        let right = call_sender(&mut *b, &call);
        let left = guarded(|| call_sender(&mut *a, &call));
        if let Some(kind) = kind(&call, &left, &right, until) {
            return Some(Divergence {
                kind,
                unmodified: left.map_or_else(|text| text, |answer| answer.to_string()),
                repaired: right.to_string(),
            });
        }
        b.state(&mut state);
        runs = domain::runs_after(runs, &call, &state);
    }
    None
}

/// The kind of difference between two answers, if it is looked for.
fn kind(call: &SenderCall, left: &Result<Answer, String>, right: &Answer, until: Until) -> Option<String> {
    match left {
        Err(text) => Some(format!("{}: panic at {}", name(call), place(text))),
        Ok(left) if left != right && until == Until::Difference => {
            let outlines = (outline(left, right), outline(right, left));
            Some(format!("{}: {} / {}", name(call), outlines.0, outlines.1))
        }
        Ok(_) => None,
    }
}

/// Where a panic arose: the file and line of its message.
fn place(text: &str) -> &str {
    let path = text.split_whitespace().find(|word| word.contains(".rs:"));
    path.map_or("", |path| path.rsplit('/').next().unwrap_or(path))
}

fn diverge_list(settings: &Settings, until: Until, calls: &[SenderCall]) -> Option<Divergence> {
    let mut rest = calls.iter();
    diverge(settings, until, &mut |_| rest.next().cloned())
}

/// The smallest script met of each kind.
type Found = BTreeMap<String, (Settings, Vec<SenderCall>)>;

/// Plays one generated script and keeps it if it is the smallest of its kind.
fn search(seed: u64, until: Until, found: &mut Found) {
    let mut generator = Generator::new(seed);
    let settings = generator.settings;
    if model().sender(&settings).is_err() || settings.buffer > 64 {
        return;
    }
    let mut calls = Vec::new();
    let divergence = diverge(&settings, until, &mut |state| {
        let call = generator.next(state)?;
        calls.push(call.clone());
        Some(call)
    });
    let kind = match divergence {
        Some(divergence) => divergence.kind,
        None => return,
    };
    let mut same = |tried: &[SenderCall]| {
        let divergence = diverge_list(&settings, until, tried);
        divergence.map_or(false, |divergence| divergence.kind == kind)
    };
    let best = found.get(&kind).map_or(usize::MAX, |(_, calls)| calls.len());
    if best <= 3 {
        return;
    }
    let small = shrink(&calls, &mut same);
    if small.len() < best {
        found.insert(kind, (settings, small));
    }
}

/// Prints each kind once.
pub fn all() {
    for (until, what) in [(Until::Panic, "panics"), (Until::Difference, "first differences")] {
        let mut found = Found::new();
        for seed in 0..SCRIPTS {
            search(seed, until, &mut found);
        }
        println!("\n# {what} of the unmodified copy after a removal, by kind: {}", found.len());
        for (settings, calls) in found.values() {
            show(settings, until, calls);
        }
    }
}

fn show(settings: &Settings, until: Until, calls: &[SenderCall]) {
    if let Some(divergence) = diverge_list(settings, until, calls) {
        println!("\n## {}\n{}", divergence.kind, written(*settings, calls));
        println!("unmodified: {}", divergence.unmodified);
        println!("repaired: {}", divergence.repaired);
    }
}
