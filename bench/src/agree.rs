//! Both are played once before anything is timed: every answer and every report
//! must be equal, so that the same work is measured.

use calls::{Run, Sender};
use phel_repaired::judge::Judge;

use crate::{
    library::{prepare, Library, Told},
    scenario::{Call, Scenario},
};

/// Plays the call file on both, and leaves the library marked where the timed
/// calls begin. The error says which call they answered differently.
pub fn agree(scenario: &Scenario) -> Result<Library, String> {
    let mut judge = Judge::new(&scenario.settings);
    let mut library = Library::new(&scenario.settings);
    for call in &scenario.before {
        answer(&mut judge, &mut library, call)?;
    }
    library.mark();
    let mut units = 0;
    for call in &scenario.timed {
        units += answer(&mut judge, &mut library, call)?;
    }
    if units != u64::from(scenario.units) {
        return Err(format!("{units} packets, not {}", scenario.units));
    }
    Ok(library)
}

/// One call of both; the packets that it reported, sent, pushed or acknowledged.
fn answer(judge: &mut Judge, library: &mut Library, call: &Call) -> Result<u64, String> {
    let told = library
        .call(&prepare(call))
        .map_err(|n| format!("{call}: the library refuses it, {n}"))?;
    let (equal, units) = compared(judge, library, call, told);
    if !equal || judge.reports() != library.reports() {
        return Err(format!("{call}: the answers differ"));
    }
    Ok(units)
}

fn compared(judge: &mut Judge, library: &Library, call: &Call, told: Told) -> (bool, u64) {
    match (call, told) {
        (Call::Message { time, seed }, Told::Pushed(pushed)) => {
            let rust = judge.message(*time, *time, &Call::payload(*seed));
            (rust == Ok(pushed), pushed.made)
        }
        (Call::Ack(ack), Told::Acked(acked)) => (judge.ack(ack) == Ok(acked), acked.received),
        (Call::Nak(words), Told::Runs(count)) => {
            let rust = judge.nak(words, u64::MAX);
            (rust == Ok(library.runs(count)), words.len() as u64)
        }
        (Call::Run { now, budget }, Told::Ran { records, left }) => {
            let run = Run {
                now: *now,
                budget: *budget,
                draining: false,
                room: u64::MAX,
            };
            let rust = judge.run(&run);
            (
                rust == Ok(library.ran(records, left)),
                u64::from(*budget - left),
            )
        }
        _ => (false, 0),
    }
}
