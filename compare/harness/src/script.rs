//! Reads scripts. A fault is told with its line, before any call is made.

use calls::{Call, LeafCall, SenderCall};

/// The calls of a script, each with its line number, or the first fault.
pub fn read(text: &str) -> Result<Vec<(usize, Call)>, (usize, String)> {
    let mut calls = Vec::new();
    for (index, line) in text.lines().enumerate() {
        let line = line.split('#').next().unwrap_or("").trim();
        if !line.is_empty() {
            let call = Call::read(line).map_err(|fault| (index + 1, fault))?;
            calls.push((index + 1, call));
        }
    }
    started(&calls)?;
    Ok(calls)
}

/// What a call speaks of, by the name of the call that makes it; and whether this
/// one does.
fn speaks_of(call: &Call) -> Option<(&'static str, bool)> {
    use LeafCall::*;
    Some(match call {
        Call::Sender(call) => ("new", matches!(call, SenderCall::New { .. })),
        Call::Leaf(Split { .. } | Header { .. }) => return None,
        Call::Leaf(PacingNew { .. }) => ("pacing new", true),
        Call::Leaf(PacingInput { .. } | PacingState {}) => ("pacing new", false),
        Call::Leaf(TimerNew { .. }) => ("timer new", true),
        Call::Leaf(TimerSet { .. } | TimerReset { .. } | TimerCheck { .. }) => ("timer new", false),
        Call::Leaf(TimerNext {} | TimerState {}) => ("timer new", false),
        Call::Leaf(call) => ("timers new", matches!(call, TimersNew { .. })),
    })
}

/// A sender, a timer and so on is made before it is called.
fn started(calls: &[(usize, Call)]) -> Result<(), (usize, String)> {
    let mut made = Vec::new();
    for (line, call) in calls {
        match speaks_of(call) {
            Some((name, true)) => made.push(name),
            Some((name, false)) if !made.contains(&name) => {
                return Err((*line, format!("there is no '{name}' before this call")));
            }
            _ => {}
        }
    }
    Ok(())
}
