//! Generated scripts, played one after another; a difference is shown with the
//! smallest script that still has one.

use std::time::Instant;

use calls::{Area, LeafCall, SenderCall, State};

use crate::{
    generate::Generator,
    generate_leaves::LeafGenerator,
    leaf_books::LeafBooks,
    leaf_trial::{self, LeafFailure},
    party::Party,
    reach::Reached,
    scores::{written, Failure, Scores},
    shrink::shrink,
    trial::Parties,
};

/// How far the random part goes.
#[derive(Clone, Copy)]
pub struct Extent {
    pub sender_calls: u64,
    pub leaf_calls: u64,
    /// Beyond these, on until then.
    pub until: Option<Instant>,
    /// Of the first script; the others follow.
    pub seed: u64,
}

fn difference(text: &str, script: &str) {
    println!("DIFFERENCE {text}\n\nsmallest script:\n{script}\n");
    println!("differences 1: stopped there");
}

/// Plays the script of that seed.
pub fn script(
    parties: &Parties,
    seed: u64,
    scores: &mut Scores,
) -> Result<(calls::Settings, Vec<SenderCall>), Failure> {
    let mut generator = Generator::new(seed);
    let settings = generator.settings;
    let source = &mut |state: &State| generator.next(state);
    let calls = parties.play(settings, source, scores)?;
    Ok((settings, calls))
}

pub fn report(parties: &Parties, failure: Failure) {
    let replay = |calls: &[SenderCall]| {
        let mut rest = calls.iter();
        let source = &mut |_: &State| rest.next().cloned();
        parties.play(failure.settings, source, &mut Scores::default())
    };
    let calls = shrink(&failure.calls, &mut |calls| replay(calls).is_err());
    let small = replay(&calls).err().unwrap_or(failure);
    difference(&small.text, &written(small.settings, &small.calls));
}

pub fn sender(extent: &Extent, parties: &Parties, scores: &mut Scores) -> Result<(), ()> {
    let least = scores.calls + extent.sender_calls;
    let until = extent.until;
    let early = || until.map_or(false, |until| Instant::now() < until);
    let mut seed = extent.seed;
    while scores.calls < least || early() {
        script(parties, seed, scores).map_err(|failure| {
            println!("seed {seed}");
            report(parties, failure);
        })?;
        seed += 1;
    }
    Ok(())
}

/// Plays the leaf's script of that seed.
pub fn leaf_script(
    parties: &Parties,
    rust: Option<Party>,
    (area, seed): (Area, u64),
    reached: &mut Reached,
) -> Result<Vec<LeafCall>, LeafFailure> {
    let mut generator = LeafGenerator::new(area, seed);
    let source = &mut |books: &LeafBooks| generator.next(books);
    parties.play_leaves(rust, source, reached)
}

pub fn report_leaf(parties: &Parties, rust: Option<Party>, failure: LeafFailure) {
    let replay = |calls: &[LeafCall]| {
        let mut rest = calls.iter();
        let source = &mut |_: &LeafBooks| rest.next().cloned();
        parties.play_leaves(rust, source, &mut Reached::default())
    };
    // A leaf is made before it is called, in a smaller script too.
    let (made, rest) = failure.calls.split_at(1);
    let with_made = |calls: &[LeafCall]| [made, calls].concat();
    let rest = shrink(rest, &mut |calls| replay(&with_made(calls)).is_err());
    let small = replay(&with_made(&rest)).err();
    let small = small.as_ref().unwrap_or(&failure);
    difference(&small.text, &leaf_trial::written(&small.calls));
}

/// Scripts of one leaf, until so many calls are compared.
pub fn leaf(
    area: Area,
    extent: &Extent,
    parties: &Parties,
    rust: Option<Party>,
    reached: &mut Reached,
) -> Result<u64, ()> {
    let (mut compared, mut seed) = (0, extent.seed);
    while compared < extent.leaf_calls {
        let calls = leaf_script(parties, rust, (area, seed), reached).map_err(|failure| {
            println!("seed {seed}");
            report_leaf(parties, rust, failure);
        })?;
        compared += calls.len() as u64;
        seed += 1;
    }
    Ok(compared)
}
