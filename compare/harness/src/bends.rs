//! Bends one rule of the model after another, and one answer of the proved
//! library after another, and sees that the generator's scripts notice.

use calls::Area;
use entries::{Bend, BENDS};

use crate::{party::UNMODIFIED, random, reach::Reached, scores::Scores, trial::Parties};

/// Scripts within which a bend must be noticed.
const MOST_SCRIPTS: u64 = 12_000;

/// A bend: its name, where it shows, what it does, and the parties with it; none
/// where the library isn't at hand.
pub struct Bent {
    pub name: String,
    pub area: Area,
    pub text: &'static str,
    pub parties: Option<Parties>,
}

/// Whether the bent party was noticed, and after how many calls.
fn notice(parties: &Parties, area: Area) -> (bool, u64) {
    let (mut scores, mut calls) = (Scores::default(), 0);
    for seed in 0..MOST_SCRIPTS {
        let noticed = match area {
            Area::Sender => random::script(parties, seed, &mut scores).is_err(),
            leaf => {
                let reached = &mut Reached::default();
                let played = random::leaf_script(parties, Some(UNMODIFIED), (leaf, seed), reached);
                calls += played.as_ref().map_or(0, |calls| calls.len() as u64);
                played.is_err()
            }
        };
        if noticed {
            return (true, scores.calls + calls);
        }
    }
    (false, scores.calls + calls)
}

/// Prints how many are noticed; gives how many are not.
fn unnoticed(what: &str, bends: Vec<Bent>) -> usize {
    let (all, mut unnoticed) = (bends.len(), 0);
    let mut latest = (0, "");
    for bent in bends {
        let parties = bent.parties.as_ref();
        let (noticed, calls) = parties.map_or((false, 0), |parties| notice(parties, bent.area));
        if !noticed {
            unnoticed += 1;
            println!("{what}: not noticed: {} ({}), {calls} calls", bent.text, bent.name);
        } else if calls >= latest.0 {
            latest = (calls, bent.text);
        }
    }
    let noticed = all - unnoticed;
    println!("{what} noticed {noticed} of {all}; the last after {} calls: {}", latest.0, latest.1);
    unnoticed
}

/// The model's bent rules, without the library.
fn bent_rules() -> Vec<Bent> {
    let bent = |rule: entries::Rule| Bent {
        name: rule.name.to_string(),
        area: rule.area,
        text: rule.text,
        parties: Some(Parties { model: entries::model(rule.number), proved: None }),
    };
    entries::rules().into_iter().map(bent).collect()
}

/// The bent answers of the proved library.
fn bent_answers() -> Vec<Bent> {
    let parties =
        |bend: Bend| entries::proved(bend).map(|proved| Parties { model: entries::model(0), proved: Some(proved) });
    let bent = |(bend, area, text): &(Bend, Area, &'static str)| Bent {
        name: format!("{bend:?}"),
        area: *area,
        text,
        parties: parties(*bend),
    };
    BENDS.iter().map(bent).collect()
}

/// How many bent rules pass unnoticed.
pub fn rules() -> usize {
    unnoticed("bent rules", bent_rules())
}

/// How many bent answers pass unnoticed, of the leaves and of the sender.
pub fn answers() -> usize {
    let sender = |bent: &Bent| bent.area == Area::Sender;
    let (of_sender, of_leaves) = bent_answers().into_iter().partition(sender);
    unnoticed("bent answers of the proved leaves", of_leaves)
        + unnoticed("bent answers of the proved sender", of_sender)
}

/// The bend of that name.
pub fn named(name: &str) -> Option<Bent> {
    let mut all = bent_rules().into_iter().chain(bent_answers());
    all.find(|bent| bent.name == name)
}

/// Prints the names of all bends.
pub fn list() {
    for (what, bends) in [("rules", bent_rules()), ("answers", bent_answers())] {
        let names: Vec<String> = bends.into_iter().map(|bent| bent.name).collect();
        println!("the bent {what}: {}", names.join(" "));
    }
}
