//! What playing scripts comes to.

use calls::{SenderCall, Settings};

use crate::reach::Reached;

/// What was compared, and what was reached.
#[derive(Default)]
pub struct Scores {
    pub scripts: u64,
    /// Calls answered by all but the unmodified copy.
    pub calls: u64,
    /// Of these, answered by the unmodified copy too.
    pub unmodified: u64,
    /// Calls that document 01 refuses by their arguments.
    pub refused: u64,
    /// Calls that were proposed but lie outside the domain, and weren't made.
    pub outside: u64,
    /// Calls that two ways through a copy agreed on.
    pub two_ways: u64,
    pub reached: Reached,
}

/// A script that ended in a difference or a panic.
pub struct Failure {
    pub settings: Settings,
    pub calls: Vec<SenderCall>,
    pub text: String,
}

/// A script in its written form.
pub fn written(settings: Settings, calls: &[SenderCall]) -> String {
    let mut lines = SenderCall::New { settings }.to_string();
    for call in calls {
        lines += &format!("\n{call}");
    }
    lines
}
