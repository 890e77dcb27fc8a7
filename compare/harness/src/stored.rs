//! Stored scripts and the answers of the Rust in both copies and of the model:
//! document 01's figures, and the differences outside the domain. An answers
//! file has a section for each group of parties that answer alike, headed
//! `## names`. The proved library must answer as the model does.

use calls::Call;
use entries::Bend;

use crate::{
    answering,
    party::{model, proved, Party, REPAIRED, UNMODIFIED},
    script,
};

macro_rules! stored {
    ($($name:literal)*) => {
        &[$((
            $name,
            include_str!(concat!("../../scripts/", $name, ".script")),
            include_str!(concat!("../../scripts/", $name, ".answers")),
        ),)*]
    };
}

/// Name, script, answers.
type Stored = (&'static str, &'static str, &'static str);

const QUICK: &[Stored] = stored! {
    "figures"
    "entry-stays-full-buffer"
    "entry-stays-late-drop"
    "entry-stays-same-run"
    "next-unsent-stays"
    "next-unsent-stays-ack"
    "panic-loss-not-buffered"
    "time-distance-late"
    "time-distance-report"
    "addition-held"
    "period-held"
    "timer-answer-held"
    "exp-period-held"
    "exp-count-held"
};

/// The Rust walks 2^30 numbers here: seconds.
const SLOW: &[Stored] = stored! { "long-range" };

/// The answers of all, in sections.
pub fn sections(calls: &[(usize, Call)]) -> String {
    let mut groups: Vec<(String, String)> = Vec::new();
    for party in [UNMODIFIED, REPAIRED, model()] {
        let (mut text, panic) = answering::answers(party, calls);
        if panic.is_some() {
            text += "panic\n";
        }
        match groups.iter_mut().find(|(_, known)| *known == text) {
            Some((names, _)) => *names += &format!(" {}", party.name),
            None => groups.push((party.name.to_string(), text)),
        }
    }
    let section = |(names, text): &(String, String)| format!("## {names}\n{text}");
    groups.iter().map(section).collect()
}

/// Whether the proved library, where it is at hand, answers as the model does.
fn as_proved(calls: &[(usize, Call)]) -> bool {
    let of = |party: Party| answering::answers(party, calls);
    proved(Bend::None).map_or(true, |proved| of(proved) == of(model()))
}

/// Holds the stored answers against those given now.
pub fn check(slow: bool) -> Result<(), String> {
    let slow = if slow { SLOW } else { &[] };
    for (name, text, answers) in QUICK.iter().chain(slow) {
        let calls = script::read(text).map_err(|(line, fault)| format!("{name}.script line {line}: {fault}"))?;
        let now = sections(&calls);
        if now != *answers {
            return Err(format!("DIFFERENCE from {name}.answers:\n{now}"));
        }
        if !as_proved(&calls) {
            return Err(format!("DIFFERENCE of the proved library in {name}.script"));
        }
    }
    println!("stored scripts answered as stored: {}", QUICK.len() + slow.len());
    Ok(())
}
