//! The comparison, bounded or full, its exhaustive part alone, and generated
//! scripts.

use std::time::{Duration, Instant};

use calls::{Area, AREAS};
use entries::Bend;

use crate::{
    bends, exhaustive, leaf_trial,
    party::UNMODIFIED,
    random::{self, Extent},
    reach::Reached,
    scores::{written, Scores},
    trial::Parties,
};

/// The model, and the proved library where it is at hand.
pub fn parties() -> Parties {
    Parties { model: entries::model(0), proved: entries::proved(Bend::None) }
}

fn names(parties: &Parties) -> &'static str {
    match parties.proved {
        Some(_) => "model and proved library",
        None => "model",
    }
}

/// Every script of up to 4 calls, then random ones.
fn sender(extent: &Extent, parties: &Parties) -> Result<Scores, ()> {
    let mut scores = Scores::default();
    exhaustive::all(parties, &mut scores).map_err(|failure| random::report(parties, failure))?;
    let (calls, scripts) = (scores.calls, scores.scripts);
    random::sender(extent, parties, &mut scores)?;
    let (random, random_scripts) = (scores.calls - calls, scores.scripts - scripts);
    println!(
        "calls of the sender compared, {}: {} in {} scripts, differences 0",
        names(parties),
        scores.calls,
        scores.scripts
    );
    println!("  every script of up to 4 calls: {calls} in {scripts} scripts");
    println!("  random scripts: {random} in {random_scripts} scripts");
    println!("  by the unmodified copy too: {}", scores.unmodified);
    println!("  two ways through the Rust agreed: {}", scores.two_ways);
    println!(
        "  besides, refused by their arguments: {}; outside the domain, not made: {}",
        scores.refused, scores.outside
    );
    Ok(scores)
}

/// The leaves with the Rust; then the library's with the model's, in the domain
/// and out of it. Gives how much was not reached.
fn leaves(extent: &Extent, parties: &Parties) -> Result<usize, ()> {
    let mut reached = Reached::default();
    for (area, name) in &AREAS[1..] {
        let rust = Some(UNMODIFIED);
        let compared = random::leaf(*area, extent, parties, rust, &mut reached)?;
        println!("calls compared with the Rust, {}, {name}: {compared}", names(parties));
    }
    if let Some(library) = entries::library() {
        for (area, name) in &AREAS[1..] {
            let compared = random::leaf(*area, extent, parties, None, &mut reached)?;
            println!("calls compared without the Rust, in the domain and out of it, {name}: {compared}");
        }
        damaged(library)?;
    }
    println!("reached by the leaves:");
    let missed = reached.print_leaves();
    // Numbers are held outside the domain: it takes two to compare there.
    Ok(missed + parties.proved.map_or(0, |_| reached.print_held()))
}

fn damaged(library: &entries::Table) -> Result<(), ()> {
    let (tried, different) = entries::damaged(library);
    let alike = tried - different.len();
    println!("damaged books of the leaves that the proved library treats as the model does: {alike} of {tried}");
    for what in &different {
        println!("DIFFERENCE {what}: damaged books are not treated as document 01 says");
    }
    if different.is_empty() {
        return Ok(());
    }
    Err(())
}

/// Leaves, bends, sender. Fails if anything differed, was not reached or not
/// noticed.
fn compare(extent: &Extent) -> Result<(), ()> {
    let parties = parties();
    if parties.proved.is_none() {
        println!("the proved library is not at hand (rt): NOT compared");
    }
    let missed = leaves(extent, &parties)?;
    let mut unnoticed = bends::rules();
    if parties.proved.is_some() {
        unnoticed += bends::answers();
    }
    let scores = sender(extent, &parties)?;
    println!("reached by the sender's scripts:");
    let missed = missed + scores.reached.print_scripts();
    println!("differences 0, not reached {missed}, bent rules and answers not noticed {unnoticed}");
    if missed + unnoticed > 0 {
        return Err(());
    }
    Ok(())
}

pub fn short(seconds: u64, seed: u64) -> Result<(), ()> {
    compare(&Extent {
        sender_calls: 1_500_000,
        leaf_calls: 100_000,
        until: Some(Instant::now() + Duration::from_secs(seconds)),
        seed,
    })
}

pub fn full(seed: u64) -> Result<(), ()> {
    compare(&Extent { sender_calls: 10_000_000, leaf_calls: 1_000_000, until: None, seed })
}

/// The exhaustive part alone.
pub fn scripts() -> Result<(), ()> {
    let (parties, mut scores) = (parties(), Scores::default());
    exhaustive::all(&parties, &mut scores).map_err(|failure| random::report(&parties, failure))?;
    println!(
        "every script of up to 4 calls, {}: {} scripts, {} calls, {} by the unmodified copy too",
        names(&parties),
        scores.scripts,
        scores.calls,
        scores.unmodified
    );
    println!("differences 0");
    Ok(())
}

/// Shows how one bend is noticed: fails, as a difference does.
pub fn bend(name: &str) -> Result<(), ()> {
    let extent = Extent { sender_calls: 1_000_000, leaf_calls: 1_000_000, until: None, seed: 0 };
    let bent = match bends::named(name) {
        Some(bent) => bent,
        None => {
            bends::list();
            return Err(());
        }
    };
    println!("bent: {}", bent.text);
    match (bent.parties, bent.area) {
        (None, _) => println!("the proved library is not at hand (rt)"),
        (Some(parties), Area::Sender) => return random::sender(&extent, &parties, &mut Scores::default()),
        (Some(parties), area) => {
            let reached = &mut Reached::default();
            return random::leaf(area, &extent, &parties, Some(UNMODIFIED), reached).map(|_| ());
        }
    }
    Err(())
}

/// Prints generated scripts of the sender or of a leaf.
pub fn generate(area: Area, seed: u64, count: u64) -> Result<(), ()> {
    let parties = parties();
    for seed in seed..seed + count {
        let script = match area {
            Area::Sender => {
                let played = random::script(&parties, seed, &mut Scores::default());
                let (settings, calls) = played.map_err(|failure| random::report(&parties, failure))?;
                written(settings, &calls)
            }
            area => {
                let reached = &mut Reached::default();
                let played = random::leaf_script(&parties, Some(UNMODIFIED), (area, seed), reached);
                let report = |failure| random::report_leaf(&parties, Some(UNMODIFIED), failure);
                leaf_trial::written(&played.map_err(report)?)
            }
        };
        println!("# seed {seed}\n{script}");
    }
    Ok(())
}
