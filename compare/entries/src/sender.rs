//! A sender behind the entries as the harness asks for it, call by call.

use std::cell::RefCell;

use calls::{word, Ack, Acked, LossRun, Pushed, Ran, Record, Refusal, Reports, Run, Sender, Sent, Settings, State};

use crate::{
    bend::Bend,
    bent,
    flat::{self, Areas, Flat},
    kept::{blank_list, Kept},
    table::{entry, lend, Table},
};

/// Bytes of a record.
const RECORD: usize = 24;
/// Words of a run of a loss report's answer.
const RUN: usize = 3;

#[derive(Clone)]
pub struct EntrySender {
    /// Calls that change nothing work in it too: they are lent its areas.
    kept: RefCell<Kept>,
}

/// The settings as they cross; a latency that 32 bits don't hold is out of range
/// either way.
fn settings_of(settings: &Settings) -> flat::Settings {
    flat::Settings {
        first: settings.first,
        size: settings.size,
        buffer: settings.buffer,
        flow: settings.window,
        latency: u32::try_from(settings.latency).unwrap_or(u32::MAX),
        overhead: settings.overhead,
        socket: settings.id,
    }
}

/// How many elements to lend: as many as there is room for, or one more answer
/// than can be needed.
fn lent(room: u64, most: usize, width: usize) -> usize {
    let most = most + 1;
    width * usize::try_from(room).map_or(most, |room| room.min(most))
}

impl EntrySender {
    pub fn new(table: &'static Table, settings: &Settings, bend: Bend) -> Result<Self, Refusal> {
        let (mode, rate, overhead) = settings.mode.numbers();
        let given = settings_of(settings);
        let answer = entry!(table, new(given, mode, rate, overhead));
        if answer.refusal.number > 0 {
            let blank = Flat::default();
            assert_eq!(answer.sender, blank, "a refused sender is all zeros");
        } else {
            assert_eq!(answer.sender.settings, given, "the settings are kept");
        }
        let mut kept = Kept::new(table, answer.sender, bend);
        kept.settle(answer.refusal, answer.sender)?;
        let kept = RefCell::new(kept);
        Ok(EntrySender { kept })
    }
}

impl EntrySender {
    /// What isn't the same in what another keeps and is lent.
    pub fn differs(&self, other: &EntrySender) -> Option<&'static str> {
        self.kept.borrow().differs(&other.kept.borrow())
    }
}

impl Kept {
    /// Where the payload lies, read from the store.
    fn payload(&mut self, number: u32) -> Result<Vec<u8>, Refusal> {
        let Areas { ring, lost, store } = &mut self.lent;
        let answer = lend!((self.table.payload), (self.flat, number), ring, lost, store);
        let lies = bent::payload(self.bend, &answer, &self.flat, &self.lent);
        self.answered(answer.refusal)?;
        Ok(self.lent.store[lies].to_vec())
    }

    /// What went out for one record.
    fn sent(&mut self, record: &Record) -> Sent {
        let number = word(record, 4);
        let (place, again) = bent::header(self.bend, record);
        let (message, stamp) = (word(record, 8), word(record, 12));
        let (id, mut header) = (self.flat.settings.socket, [0xa5; 16]);
        let at = header.as_mut_ptr();
        entry!(self.table, header(at, place, again, number, message, stamp, id));
        let payload = self.payload(number);
        Sent { header, payload: payload.expect("a packet that goes out is held") }
    }
}

impl Sender for EntrySender {
    fn message(&mut self, time: u64, now: u64, payload: &[u8]) -> Result<Pushed, Refusal> {
        let kept = self.kept.get_mut();
        let payload = &bent::bytes(kept.bend, payload);
        let (bytes, len) = (payload.as_ptr(), payload.len());
        let Areas { ring, lost, store } = &mut kept.lent;
        let mut answer = lend!((kept.table.message), (kept.flat, time, now, bytes, len), ring, lost, store);
        bent::message(kept.bend, &mut answer);
        kept.settle(answer.refusal, answer.sender)?;
        Ok(Pushed {
            made: answer.made as u64,
            removed: answer.removed as u64,
            removed_bytes: answer.bytes,
            period: (answer.period > 0).then_some(answer.period),
        })
    }

    fn ack(&mut self, ack: &Ack) -> Result<Acked, Refusal> {
        let kept = self.kept.get_mut();
        // What an ACK doesn't bring isn't looked at: numbers that would show.
        let (full, full_number) = (ack.full.is_some(), ack.full.unwrap_or(u32::MAX));
        let rtt = ack.rtt.filter(|_| kept.bend != Bend::RttNotGiven);
        let (mean, variance) = rtt.map_or((u32::MAX, u32::MAX), |rtt| (rtt.mean, rtt.variance));
        let (measured, rtt) = (rtt.is_some(), flat::Rtt { mean, variance });
        let Areas { ring, lost, .. } = &mut kept.lent;
        let mut answer = lend!((kept.table.ack), (kept.flat, ack.number, full, full_number, measured, rtt), ring, lost);
        bent::ack(kept.bend, &kept.flat, &mut answer);
        kept.settle(answer.refusal, answer.sender)?;
        let done = answer.done;
        let none = !done.full && done.full_number > 0;
        assert!(!none, "a full number is told that wasn't brought");
        Ok(Acked {
            received: u64::from(done.received),
            recovered: u64::from(done.recovered),
            full: done.full.then_some(done.full_number),
        })
    }

    fn nak(&mut self, words: &[u32], room: u64) -> Result<Vec<LossRun>, Refusal> {
        let kept = self.kept.get_mut();
        blank_list(&mut kept.runs, lent(room, RUN * words.len(), RUN));
        let (word, len, runs) = (words.as_ptr(), words.len(), &mut kept.runs);
        let Areas { ring, lost, .. } = &mut kept.lent;
        let answer = lend!((kept.table.nak), (kept.flat, word, len), ring, lost, runs);
        bent::list(kept.bend, answer.refusal, runs);
        kept.settle(answer.refusal, answer.sender)?;
        let runs = kept.runs[..RUN * answer.runs].chunks(RUN);
        let mut runs: Vec<LossRun> = runs.map(LossRun::read).collect();
        bent::runs(kept.bend, &mut runs);
        Ok(runs)
    }

    fn run(&mut self, run: &Run) -> Result<Ran, Refusal> {
        let kept = self.kept.get_mut();
        let most = (run.budget as usize).min(kept.flat.books.ring.len) + 3;
        blank_list(&mut kept.records, lent(run.room, most, RECORD));
        let draining = bent::draining(kept.bend, run.draining);
        let (Areas { ring, lost, .. }, list) = (&mut kept.lent, &mut kept.records);
        let answer = lend!((kept.table.run), (kept.flat, run.now, run.budget, draining), ring, lost, list);
        bent::list(kept.bend, answer.refusal, list);
        kept.settle(answer.refusal, answer.sender)?;
        let records = kept.records[..RECORD * answer.done.records].chunks_exact(RECORD);
        let record = |bytes| Record::try_from(bytes).expect("a record's bytes");
        kept.last_run.clear();
        kept.last_run.extend(records.map(record));
        let mut ran = Ran { records: kept.last_run.clone(), left: answer.done.left };
        bent::ran(kept.bend, &kept.flat, &mut ran);
        Ok(ran)
    }

    fn reports(&self) -> Reports {
        let kept = &mut *self.kept.borrow_mut();
        let Areas { ring, lost, .. } = &mut kept.lent;
        let mut answer = lend!((kept.table.reports), (kept.flat), ring, lost);
        bent::reports(kept.bend, &mut answer);
        let told = kept.answered(answer.refusal);
        assert_eq!(told, Ok(()), "books that a call left are refused");
        let done = answer.done;
        Reports {
            flushed: done.is_flushed,
            has_packets_to_send: done.has_packets_to_send,
            packets: done.len as u64,
            bytes: done.len_bytes,
            time: done.duration,
        }
    }

    fn payload(&self, number: u32) -> Result<Vec<u8>, Refusal> {
        self.kept.borrow_mut().payload(number)
    }

    fn sent(&self) -> Vec<Sent> {
        let kept = &mut *self.kept.borrow_mut();
        let records = kept.last_run.clone();
        let sends = records.iter().filter(|record| record[0] <= 3);
        sends.map(|record| kept.sent(record)).collect()
    }

    fn state(&self, out: &mut State) {
        self.kept.borrow().state(out);
    }

    fn preset_message(&mut self, number: u32) {
        self.kept.get_mut().flat.books.message = number;
    }
}
