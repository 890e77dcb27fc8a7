//! One script on all senders: the model and the proved library throughout, the
//! repaired copy too, and the unmodified copy up to, not including, the call that
//! makes the first removal by a full buffer or late drop. Answers, what runs send,
//! and the books must be equal.

use std::mem;

use calls::{call_sender, Answer, Refusal, Sender, SenderCall, Settings, State};
use entries::{Entries, EntrySender};

use crate::{
    domain::{self, Runs},
    note,
    panics::guarded,
    party::{Party, REPAIRED, UNMODIFIED},
    reach::Reach,
    scores::{Failure, Scores},
};

/// Those held against the Rust: the model, which also says what is refused, and
/// the proved library where it is at hand.
#[derive(Clone, Copy)]
pub struct Parties {
    pub model: Entries,
    pub proved: Option<Entries>,
}

/// Where a script's next call comes from: the books as they are.
pub type Source<'a> = &'a mut dyn FnMut(&State) -> Option<SenderCall>;

struct Trial<'a> {
    settings: Settings,
    unmodified: Option<Box<dyn Sender>>,
    repaired: Box<dyn Sender>,
    model: EntrySender,
    proved: Option<EntrySender>,
    before: State,
    /// Of the repaired copy.
    books: State,
    other: State,
    runs: Runs,
    scores: &'a mut Scores,
}

fn equal(what: &str, a: &Answer, b: &Answer) -> Result<(), String> {
    if a == b {
        return Ok(());
    }
    Err(format!("{what}\n--- one\n{a}\n--- against\n{b}"))
}

fn equal_books(whose: &str, a: &State, b: &State) -> Result<(), String> {
    if a == b {
        return Ok(());
    }
    let [a, b] = [a, b].map(|state| Answer::State(Box::new(state.clone())));
    equal(&format!("books of {whose}"), &a, &b)
}

impl Trial<'_> {
    /// One call; false if it lies outside the domain and wasn't made.
    fn step(&mut self, call: &SenderCall) -> Result<bool, String> {
        let inside = domain::admits(call, &self.books, &self.settings, self.runs);
        if !inside && call_sender(&mut self.model.clone(), call).refused().is_none() {
            return Ok(false);
        }
        let answer = call_sender(&mut self.model, call);
        if let Some(proved) = &mut self.proved {
            let proved = call_sender(proved, call);
            equal("the model, the proved library", &answer, &proved)?;
        }
        if let Some(refusal) = answer.refused() {
            return self.refused(refusal).map(|()| true);
        }
        let rust = call_sender(&mut *self.repaired, call);
        equal("the repaired copy, the model", &rust, &answer)?;
        if matches!(answer, Answer::Ran(_)) {
            self.compare_sent()?;
        }
        self.step_unmodified(call, &answer)?;
        self.scores.calls += 1;
        mem::swap(&mut self.before, &mut self.books);
        self.repaired.state(&mut self.books);
        self.compare_books()?;
        let seen = note::Seen { settings: &self.settings, before: &self.before, after: &self.books, runs: self.runs };
        seen.note(call, &answer, &mut self.scores.reached);
        self.runs = domain::runs_after(self.runs, call, &self.books);
        Ok(true)
    }

    /// The Rust isn't given such a call: the books must be as they were.
    fn refused(&mut self, refusal: Refusal) -> Result<(), String> {
        if let Some(reach) = Reach::refused(refusal.number) {
            self.scores.reached.note(reach);
        }
        self.scores.refused += 1;
        self.compare_books()
    }

    fn compare_sent(&self) -> Result<(), String> {
        let sent = Answer::Sent(self.repaired.sent());
        equal("sent, the model", &sent, &Answer::Sent(self.model.sent()))?;
        let proved = self.proved.iter();
        let mut proved = proved.map(|proved| Answer::Sent(proved.sent()));
        proved.try_for_each(|proved| equal("sent, the proved library", &sent, &proved))
    }

    fn step_unmodified(&mut self, call: &SenderCall, answer: &Answer) -> Result<(), String> {
        let full = matches!(answer, Answer::Pushed(pushed) if pushed.removed > 0);
        let late = matches!(answer, Answer::Ran(ran) if ran.records.iter().any(|r| r[0] == 4));
        let scores = &mut *self.scores;
        match self.unmodified.take() {
            Some(unmodified) if full || late => {
                scores.reached.note_if(full, Reach::UnmodifiedFull);
                scores.reached.note_if(late, Reach::UnmodifiedLate);
                scores.two_ways += unmodified.agreed();
            }
            Some(mut unmodified) => {
                let unpatched = call_sender(&mut *unmodified, call);
                equal("the unmodified copy, the model", &unpatched, answer)?;
                scores.unmodified += 1;
                self.unmodified = Some(unmodified);
            }
            None => {}
        }
        Ok(())
    }

    /// All books are those of the repaired copy.
    fn compare_books(&mut self) -> Result<(), String> {
        self.model.state(&mut self.other);
        equal_books("the model", &self.books, &self.other)?;
        if let Some(proved) = &self.proved {
            if let Some(part) = self.model.differs(proved) {
                return Err(format!("{part} of the proved library isn't the model's"));
            }
        }
        if let Some(unmodified) = &self.unmodified {
            unmodified.state(&mut self.other);
            equal_books("the unmodified copy", &self.books, &self.other)?;
        }
        Ok(())
    }

    /// The last books keep the book rules too: the model would refuse them.
    fn finish(self) {
        self.model.reports();
        self.scores.two_ways += self.repaired.agreed();
        self.scores.two_ways += self.unmodified.map_or(0, |unmodified| unmodified.agreed());
    }
}

fn refused_settings<'a>(scores: &mut Scores, a: Refusal, b: Refusal) -> Result<Option<Trial<'a>>, String> {
    scores.refused += 1;
    scores.reached.note(Reach::Refused1);
    equal("settings", &Answer::Refused(a), &Answer::Refused(b)).map(|()| None)
}

impl Parties {
    /// Plays one script; `source` gives the next call from the books as they are.
    /// Gives the calls that were made.
    pub fn play(&self, settings: Settings, source: Source, scores: &mut Scores) -> Result<Vec<SenderCall>, Failure> {
        let mut calls = Vec::new();
        let outcome = guarded(|| self.play_calls(settings, source, scores, &mut calls));
        match outcome {
            Ok(Ok(())) => Ok(calls),
            Ok(Err(text)) | Err(text) => Err(Failure { settings, calls, text }),
        }
    }

    /// The senders; none where the settings are refused, by all alike.
    fn start<'a>(&self, settings: Settings, scores: &'a mut Scores) -> Result<Option<Trial<'a>>, String> {
        scores.scripts += 1;
        let proved = self.proved.map(|proved| proved.sender(&settings)).transpose();
        let (model, proved) = match (self.model.sender(&settings), proved) {
            (Ok(model), Ok(proved)) => (model, proved),
            (Err(refusal), Ok(None)) => return refused_settings(scores, refusal, refusal),
            (Err(refusal), Err(proved)) => return refused_settings(scores, refusal, proved),
            _ => return Err("one of two refuses the settings".to_string()),
        };
        let rust = |party: Party| party.sender(&settings).map_err(|r| r.to_string());
        let mut trial = Trial {
            settings,
            unmodified: Some(rust(UNMODIFIED)?),
            repaired: rust(REPAIRED)?,
            model,
            proved,
            before: State::default(),
            books: State::default(),
            other: State::default(),
            runs: None,
            scores,
        };
        trial.repaired.state(&mut trial.books);
        trial.compare_books()?;
        Ok(Some(trial))
    }

    fn play_calls(
        &self,
        settings: Settings,
        source: Source,
        scores: &mut Scores,
        calls: &mut Vec<SenderCall>,
    ) -> Result<(), String> {
        let mut trial = match self.start(settings, scores)? {
            Some(trial) => trial,
            None => return Ok(()),
        };
        while let Some(call) = source(&trial.books) {
            calls.push(call);
            let call = &calls[calls.len() - 1];
            if !trial.step(call)? {
                trial.scores.outside += 1;
                calls.pop();
            }
        }
        trial.finish();
        Ok(())
    }
}
