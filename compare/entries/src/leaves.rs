//! Pacing, splitting and headers behind the entries, and all leaves.

use calls::{Answer, LeafCall, Leaves, Piece};

use crate::{
    bend::Bend,
    flat::Pacing,
    kept::pacing_state,
    table::{entry, Table},
    timers::{refused, EntryTimers},
};

#[derive(Clone)]
pub struct EntryLeaves {
    table: &'static Table,
    bend: Bend,
    timers: EntryTimers,
    pacing: Option<Pacing>,
}

impl EntryLeaves {
    pub fn new(table: &'static Table, bend: Bend) -> Self {
        let timers = EntryTimers { table, bend, timer: None, timers: None };
        EntryLeaves { table, bend, timers, pacing: None }
    }

    fn call_pacing(&mut self, call: &LeafCall, pacing: Pacing) -> Answer {
        let (now, packets, bytes) = match (call, self.bend) {
            (LeafCall::PacingInput { now, packets, bytes }, Bend::PacketsAsBytes) => (*now, *bytes, *packets),
            (LeafCall::PacingInput { now, packets, bytes }, _) => (*now, *packets, *bytes),
            _ => return Answer::Pacing(pacing_state(&pacing)),
        };
        let mut answer = entry!(self.table, pacing_input(pacing, now, packets, bytes));
        let mode = |pacing: Pacing| (pacing.mode, pacing.rate, pacing.overhead);
        assert_eq!(mode(pacing), mode(answer.pacing), "the mode stays");
        if self.bend == Bend::VarianceLost {
            answer.pacing.bytes.variance = 0;
        }
        self.pacing = Some(answer.pacing);
        let least = u64::from(self.bend == Bend::PeriodSilent);
        let told = (answer.period > least).then_some(answer.period);
        Answer::of(refused(answer.refusal), |()| Answer::Period(told))
    }

    fn new_pacing(&mut self, mode: u32, rate: u64, overhead: u64) -> Answer {
        let mode = match (mode, self.bend) {
            (0, Bend::InputAsEstimated) => 1,
            _ => mode,
        };
        let answer = entry!(self.table, pacing_new(mode, rate, overhead));
        let made = answer.pacing;
        let given = (made.mode, made.rate, made.overhead);
        assert_eq!(given, (mode, rate, overhead), "the mode as it was given");
        assert_eq!(answer.period, 0, "a new pacing has no period");
        if answer.refusal == 0 {
            self.pacing = Some(made);
        }
        Answer::done(refused(answer.refusal))
    }

    /// Packet k, which starts where those before it end.
    fn piece(&self, size: u32, length: u32, k: usize, start: usize) -> Piece {
        let answer = entry!(self.table, piece(length as usize, size as usize, k));
        assert!(answer.refusal == 0 && answer.found, "packet {k} is there");
        assert_eq!(answer.start, start, "packet {k} follows the one before");
        let last = answer.place % 2 == 1;
        let place = match self.bend {
            Bend::PlacesTurned => answer.place % 2 * 2 + answer.place / 2,
            _ => answer.place,
        };
        Piece {
            place: place as u8,
            length: match self.bend {
                Bend::LastFull if last => size,
                _ => answer.len as u32,
            },
        }
    }

    fn split(&self, size: u32, length: u32) -> Answer {
        let answer = entry!(self.table, packets(length as usize, size as usize));
        let past = entry!(self.table, piece(length as usize, size as usize, answer.packets));
        assert_eq!(past.refusal, answer.refusal, "both calls refuse alike");
        assert!(!past.found, "there is no packet past the last");
        let fewer = usize::from(self.bend == Bend::OneFewer);
        let mut start = 0;
        let piece = |k: usize| {
            let piece = self.piece(size, length, k, start);
            start += piece.length as usize;
            piece
        };
        Answer::of(refused(answer.refusal), |()| Answer::Pieces((0..answer.packets - fewer).map(piece).collect()))
    }

    fn header(&self, (number, place, again, message, stamp, id): Header) -> Answer {
        let again = again && self.bend != Bend::NeverAgain;
        let (stamp, id) = match self.bend {
            Bend::StampAsId => (id, stamp),
            _ => (stamp, id),
        };
        let (number, message) = match self.bend {
            Bend::NumberAsMessage => (message, number),
            _ => (number, message),
        };
        let mut out = [0xa5; 16];
        let at = out.as_mut_ptr();
        entry!(self.table, header(at, u32::from(place), again, number, message, stamp, id));
        Answer::Header(out)
    }
}

/// Number, place, whether it is sent again, message, stamp, socket id.
type Header = (u32, u8, bool, u32, u32, u32);

impl Leaves for EntryLeaves {
    fn call(&mut self, call: &LeafCall) -> Answer {
        use LeafCall::*;
        match call {
            PacingNew { mode } => {
                let (mode, rate, overhead) = mode.numbers();
                self.new_pacing(mode, rate, overhead)
            }
            Split { size, length } => self.split(*size, *length),
            Header { number, place, again, message, stamp, id } => {
                self.header((*number, *place, *again, *message, *stamp, id.0))
            }
            PacingInput { .. } | PacingState {} => {
                self.pacing.map_or(Answer::Nothing, |pacing| self.call_pacing(call, pacing))
            }
            _ => self.timers.call(call),
        }
    }
}
