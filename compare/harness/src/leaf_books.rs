//! What the leaves that a script has made keep.

use calls::{Answer, LeafCall, Leaves, PacingState, TimerState, TimersState};

#[derive(Clone, Copy, Default)]
pub struct LeafBooks {
    pub timer: Option<TimerState>,
    pub timers: Option<TimersState>,
    pub pacing: Option<PacingState>,
}

impl LeafBooks {
    /// The books of the leaf that the call may have changed.
    pub fn read(call: &LeafCall, leaves: &mut dyn Leaves) -> Option<Answer> {
        use LeafCall::*;
        let state = match call {
            TimerNew { .. } | TimerSet { .. } | TimerReset { .. } | TimerCheck { .. } => TimerState {},
            PacingNew { .. } | PacingInput { .. } => PacingState {},
            TimerNext {} | TimerState {} | TimersState {} | PacingState {} => return None,
            Split { .. } | Header { .. } => return None,
            _ => TimersState {},
        };
        Some(leaves.call(&state))
    }

    pub fn keep(&mut self, answer: &Answer) {
        match answer {
            Answer::Timer(state) => self.timer = Some(*state),
            Answer::Timers(state) => self.timers = Some(*state),
            Answer::Pacing(state) => self.pacing = Some(*state),
            _ => {}
        }
    }
}
