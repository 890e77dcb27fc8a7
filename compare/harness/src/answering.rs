//! Answers a script with one party.

use calls::{call_sender, Answer, Call, Leaves, Sender, SenderCall};

use crate::{
    panics::guarded,
    party::{model, Party},
};

/// A party at work on a script.
struct Desk {
    party: Party,
    sender: Option<Box<dyn Sender>>,
    leaves: Box<dyn Leaves>,
}

impl Desk {
    fn of(party: Party) -> Self {
        Desk { party, sender: None, leaves: party.leaves() }
    }

    fn call(&mut self, call: &Call) -> Answer {
        match (call, &mut self.sender) {
            (Call::Leaf(call), _) => self.leaves.call(call),
            (Call::Sender(SenderCall::New { settings }), _) => {
                self.sender = None;
                Answer::of(self.party.sender(settings), |sender| {
                    self.sender = Some(sender);
                    Answer::Done
                })
            }
            (Call::Sender(_), None) => Answer::Nothing,
            (Call::Sender(call), Some(sender)) => call_sender(&mut **sender, call),
        }
    }
}

/// A party, beside the model where it leaves refusals to document 01: it isn't
/// given the calls that the model refuses by their arguments.
struct Answerer {
    desk: Desk,
    document: Option<Desk>,
}

impl Answerer {
    fn of(party: Party) -> Self {
        let document = (!party.refuses()).then(|| Desk::of(model()));
        Answerer { desk: Desk::of(party), document }
    }

    fn call(&mut self, call: &Call) -> Answer {
        let document = self.document.as_mut().map(|document| document.call(call));
        match document {
            Some(answer) if answer.refused().is_some() => {
                if let Call::Sender(SenderCall::New { .. }) = call {
                    self.desk.sender = None;
                }
                answer
            }
            _ => self.desk.call(call),
        }
    }
}

/// The answers alone.
pub fn plain(party: Party, calls: &[Call]) -> String {
    let mut answerer = Answerer::of(party);
    let line = |call: &Call| format!("{}\n", answerer.call(call));
    calls.iter().map(line).collect()
}

/// The answers, one after another, up to a panic; its message then.
pub fn answers(party: Party, calls: &[(usize, Call)]) -> (String, Option<String>) {
    let mut answerer = Answerer::of(party);
    let mut text = String::new();
    for (line, call) in calls {
        text += &format!("> {call}\n");
        match guarded(|| answerer.call(call)) {
            Ok(answer) => text += &format!("{answer}\n"),
            Err(panic) => return (text, Some(format!("line {line}: {panic}"))),
        }
    }
    (text, None)
}
