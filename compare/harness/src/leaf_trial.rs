//! One script on the leaves of the model and the proved library, and of the
//! unmodified copy of the Rust inside the domain of equality, or without it on any
//! calls. Answers and books must be equal.

use calls::{Answer, LeafCall, Leaves, PacingState, TimerState, TimersState, Which};
use entries::EntryLeaves;

use crate::{
    domain::{self, LONGEST_PERIOD},
    leaf_books::LeafBooks,
    panics::guarded,
    party::Party,
    reach::{Reach, Reached},
    trial::Parties,
};

/// Where a script's next call comes from: the books as they are.
pub type LeafSource<'a> = &'a mut dyn FnMut(&LeafBooks) -> Option<LeafCall>;

/// A leaf script that ended in a difference or a panic.
pub struct LeafFailure {
    pub calls: Vec<LeafCall>,
    pub text: String,
}

/// A leaf script in its written form.
pub fn written(calls: &[LeafCall]) -> String {
    let lines: Vec<String> = calls.iter().map(LeafCall::to_string).collect();
    lines.join("\n")
}

struct LeafTrial<'a> {
    rust: Option<Box<dyn Leaves>>,
    model: EntryLeaves,
    proved: Option<EntryLeaves>,
    books: LeafBooks,
    reached: &'a mut Reached,
}

fn equal(what: &str, a: &Answer, b: &Answer) -> Result<(), String> {
    if a == b {
        return Ok(());
    }
    Err(format!("{what}\n--- one\n{a}\n--- against\n{b}"))
}

impl LeafTrial<'_> {
    /// One call; false if it lies outside the domain and wasn't made.
    fn step(&mut self, call: &LeafCall) -> Result<bool, String> {
        let inside = domain::admits_leaf(call, &self.books);
        let skipped = !inside && self.rust.is_some();
        if skipped && self.model.clone().call(call).refused().is_none() {
            return Ok(false);
        }
        let answer = self.model.call(call);
        if let Some(proved) = &mut self.proved {
            equal("the model, the proved library", &answer, &proved.call(call))?;
        }
        if let (Some(rust), None) = (&mut self.rust, answer.refused()) {
            let rust = period_held(rust.call(call), self.reached);
            equal("the Rust, the model", &rust, &answer)?;
        }
        self.note(call, &answer);
        if !inside {
            self.note_held(call, &answer);
        }
        self.compare_books(call)?;
        Ok(true)
    }

    fn compare_books(&mut self, call: &LeafCall) -> Result<(), String> {
        let books = match LeafBooks::read(call, &mut self.model) {
            Some(books) => books,
            None => return Ok(()),
        };
        let proved = self.proved.as_mut().map(|proved| proved as &mut dyn Leaves);
        let rust = self.rust.as_mut().map(|rust| &mut **rust as &mut dyn Leaves);
        for (name, other) in [("the proved library", proved), ("the Rust", rust)] {
            let read = other.and_then(|other| LeafBooks::read(call, other));
            if let Some(other) = read {
                equal(&format!("books of the model, of {name}"), &books, &other)?;
            }
        }
        self.books.keep(&books);
        Ok(())
    }

    fn note(&mut self, call: &LeafCall, answer: &Answer) {
        match (call, answer) {
            (_, Answer::Refused(refusal)) => {
                if let Some(reach) = Reach::refused(refusal.number) {
                    self.reached.note(reach);
                }
            }
            (LeafCall::TimerCheck { now }, Answer::Fired(fired)) => {
                if let Some(timer) = self.books.timer {
                    self.note_timer(*now, *fired, timer);
                }
            }
            (LeafCall::TimersCheck { which, now }, Answer::Fired(fired)) => {
                let idle = *which == Which::PeerIdle;
                if let (true, Some(timers)) = (idle, self.books.timers) {
                    self.note_idle(*now, fired.is_some(), timers);
                }
            }
            (LeafCall::PacingInput { now, .. }, Answer::Period(Some(period))) => {
                self.reached.note_if(*period == 1, Reach::PacingOne);
                if let Some(pacing) = self.books.pacing {
                    self.note_estimate(*now, pacing);
                }
            }
            (LeafCall::Split { size, length }, Answer::Pieces(pieces)) => {
                self.reached.note_if(pieces.len() > 1, Reach::SplitMany);
                let exact = *length > 0 && length % size == 0;
                self.reached.note_if(exact, Reach::SplitExact);
            }
            _ => {}
        }
    }

    /// Of a call outside the domain.
    fn note_held(&mut self, call: &LeafCall, answer: &Answer) {
        match (call, answer) {
            (LeafCall::TimerCheck { .. }, Answer::Fired(_)) => self.reached.note(Reach::TimerHeld),
            (LeafCall::TimersRtt { .. }, Answer::Done) => self.reached.note(Reach::ExpHeld),
            _ => {}
        }
    }

    fn note_timer(&mut self, now: u64, fired: Option<u32>, timer: TimerState) {
        let several = timer.period > 0 && fired.map_or(false, |periods| periods > 1);
        self.reached.note_if(several, Reach::TimerSeveral);
        self.reached.note_if(timer.period == 0, Reach::TimerZero);
        let short = (1..1_000).contains(&timer.period) && fired.is_some();
        self.reached.note_if(short, Reach::TimerShort);
        self.reached.note_if(now < timer.origin, Reach::TimerBefore);
    }

    fn note_idle(&mut self, now: u64, answered: bool, timers: TimersState) {
        let fires = |timer: TimerState| now >= timer.origin + timer.period;
        self.reached.note_if(fires(timers.exp), Reach::ExpFired);
        let silent = fires(timers.exp) && fires(timers.peer_idle) && !answered;
        self.reached.note_if(silent, Reach::IdleSilent);
        self.reached.note_if(answered, Reach::IdleAnswered);
        let counted = fires(timers.exp) && !answered && timers.exp_count == u32::MAX;
        self.reached.note_if(counted, Reach::ExpCountHeld);
    }

    fn note_estimate(&mut self, now: u64, before: PacingState) {
        const STEP: u64 = 100_000;
        let over = now - before.next.unwrap_or(now);
        let elapsed = STEP * (1 + over / STEP);
        self.reached.note_if(over >= STEP, Reach::PacingSkipped);
        let fresh = before.byte_mean == 0 && before.byte_variance == 0;
        let rate = u128::from(before.bytes) * 1_000_000 / u128::from(elapsed);
        let above = rate > u128::from(before.byte_mean);
        self.reached.note_if(fresh, Reach::PacingFresh);
        self.reached.note_if(!fresh && above, Reach::PacingUp);
        self.reached.note_if(!fresh && !above, Reach::PacingDown);
    }
}

/// The Rust doesn't hold the period; document 01 does.
fn period_held(answer: Answer, reached: &mut Reached) -> Answer {
    match answer {
        Answer::Period(Some(period)) if period > LONGEST_PERIOD => {
            reached.note(Reach::PacingHeld);
            Answer::Period(Some(LONGEST_PERIOD))
        }
        answer => answer,
    }
}

impl Parties {
    /// Plays one script of the leaves; gives the calls that were made.
    pub fn play_leaves(
        &self,
        rust: Option<Party>,
        source: LeafSource,
        reached: &mut Reached,
    ) -> Result<Vec<LeafCall>, LeafFailure> {
        let mut trial = LeafTrial {
            rust: rust.map(|rust| rust.leaves()),
            model: self.model.leaves(),
            proved: self.proved.map(|proved| proved.leaves()),
            books: LeafBooks::default(),
            reached,
        };
        let mut calls: Vec<LeafCall> = Vec::new();
        let outcome = guarded(|| {
            while let Some(call) = source(&trial.books) {
                calls.push(call);
                let call = &calls[calls.len() - 1];
                if !trial.step(call)? {
                    calls.pop();
                }
            }
            Ok(())
        });
        match outcome {
            Ok(Ok(())) => Ok(calls),
            Ok(Err(text)) | Err(text) => Err(LeafFailure { calls, text }),
        }
    }
}
