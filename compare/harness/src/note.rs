//! Notes what a call reached, from the books before and after it.

use calls::{
    word, Acked, Answer, Loss, LossRun, PacketState, Pushed, Ran, Record, Refusal, SenderCall, Settings, State, EMPTY,
    INVALID_ACK, STALE_FULL_ACK,
};

use crate::{
    domain::{distance, late_window, Runs},
    reach::{Reach, Reached},
};

pub struct Seen<'a> {
    pub settings: &'a Settings,
    pub before: &'a State,
    pub after: &'a State,
    pub runs: Runs,
}

/// Range marks among the words of a report.
fn ranges(words: &[u32]) -> usize {
    words.iter().filter(|word| **word >= 1 << 31).count()
}

impl Seen<'_> {
    pub fn note(&self, call: &SenderCall, answer: &Answer, reached: &mut Reached) {
        match (call, answer) {
            (SenderCall::Message { payload, .. }, Answer::Pushed(pushed)) => {
                reached.note_if(payload.length() == 0, Reach::EmptyMessage);
                self.message(pushed, reached);
            }
            (SenderCall::Ack { ack }, Answer::Acked(acked)) => self.acked(ack, acked, reached),
            (SenderCall::Ack { ack }, Answer::Refused(refusal)) => {
                self.ack_refused(ack, refusal, reached);
            }
            (SenderCall::Nak { report }, Answer::Runs(runs)) => {
                self.losses(&report.words, runs, reached);
            }
            (SenderCall::Run { run }, Answer::Ran(ran)) => {
                reached.note_if(run.draining, Reach::Drain);
                self.times(run.now, reached);
                self.records(run.budget, ran, reached);
            }
            (SenderCall::Reports {}, _) => {
                let ends = (self.after.packets.first(), self.after.packets.last());
                let negative = matches!(ends, (Some(f), Some(b)) if b.time < f.time);
                reached.note_if(negative, Reach::ReportNegative);
            }
            (SenderCall::Payload { .. }, Answer::Refused(_)) => reached.note(Reach::Refused14),
            (SenderCall::Payload { number }, _) => {
                let buffered = self.after.packets.iter().any(|p| p.number == *number);
                reached.note_if(!buffered, Reach::FlushHeld);
            }
            _ => {}
        }
    }

    fn lost(&self, packet: &PacketState) -> bool {
        self.before.lost.contains(&packet.number)
    }

    fn message(&self, pushed: &Pushed, reached: &mut Reached) {
        let (before, after) = (self.before, self.after);
        reached.note_if(after.next_number < before.next_number, Reach::NumberWrap);
        reached.note_if(after.next_message < before.next_message, Reach::MessageWrap);
        reached.note_if(pushed.period.is_some(), Reach::Period);
        reached.note_if(after.packets.len() == 8_192, Reach::BufferLargest);
        let capacity = u64::from(self.settings.buffer.max(1));
        reached.note_if(pushed.made > capacity, Reach::LargerThanBuffer);
        reached.note_if(pushed.removed > 0, Reach::FullBuffer);
        let removed = before.packets.iter().take(pushed.removed as usize);
        for packet in removed {
            reached.note_if(packet.count == 0, Reach::FullBufferUnsent);
            reached.note_if(packet.count > 0, Reach::FullBufferSent);
            reached.note_if(self.lost(packet), Reach::FullBufferLost);
        }
    }

    fn acked(&self, ack: &calls::Ack, acked: &Acked, reached: &mut Reached) {
        reached.note_if(acked.received > 0, Reach::AckReceived);
        reached.note_if(acked.received == 0, Reach::AckNothing);
        reached.note_if(ack.number == self.before.next_unsent, Reach::AckAll);
        reached.note_if(acked.recovered > 0, Reach::AckRecovered);
        let front = self.before.packets.first().map_or(0, |p| p.number);
        reached.note_if(ack.number < front, Reach::AckAcrossWrap);
        let above = |full: u32| u64::from(full) > self.before.expected_full;
        reached.note_if(ack.full.map_or(false, above), Reach::AckFullAbove);
    }

    fn ack_refused(&self, ack: &calls::Ack, refusal: &Refusal, reached: &mut Reached) {
        let below = || distance(refusal.values[1] as u32, ack.number) >= 1 << 30;
        match refusal.number {
            EMPTY => reached.note(Reach::AckEmpty),
            STALE_FULL_ACK => {
                reached.note(Reach::AckStale);
                reached.note_if(ack.rtt.is_some(), Reach::AckStaleRtt);
            }
            INVALID_ACK if below() => reached.note(Reach::AckBelow),
            INVALID_ACK => reached.note(Reach::AckAbove),
            _ => {}
        }
    }

    fn losses(&self, words: &[u32], runs: &[LossRun], reached: &mut Reached) {
        let ranges = ranges(words);
        reached.note_if(words.is_empty(), Reach::LossNoWords);
        reached.note_if(ranges > 0, Reach::LossRange);
        reached.note_if(words.len() > 2 * ranges, Reach::LossSingle);
        reached.note_if(self.before.packets.is_empty(), Reach::LossEmptyBuffer);
        let items = words.len() - ranges;
        reached.note_if(items == 1 && runs.len() == 3, Reach::LossThreeRuns);
        reached.note_if(runs.len() < items, Reach::LossJoined);
        let half = |word: &u32| distance(self.before.next_unsent, *word) == 1 << 30;
        reached.note_if(words.iter().any(half), Reach::LossHalf);
        for run in runs {
            reached.note(match run.loss {
                Loss::Added => Reach::LossAdded,
                Loss::Ignored => Reach::LossIgnored,
                Loss::Dropped => Reach::LossDropped,
            });
            reached.note_if(run.end < run.first && run.end > 0, Reach::LossAcrossWrap);
            let within = |lost: &u32| distance(run.first, *lost) < distance(run.first, run.end);
            let again = run.loss == Loss::Added && self.before.lost.iter().any(within);
            reached.note_if(again, Reach::LossAgain);
        }
    }

    fn times(&self, now: u64, reached: &mut Reached) {
        let packets = &self.before.packets;
        let side = |packet: &PacketState| packet.time >> 32 != now >> 32;
        reached.note_if(packets.iter().any(side), Reach::StampWrap);
        let late_at = packets.first().map(|p| p.time + late_window(self.settings));
        reached.note_if(late_at == Some(now), Reach::LateAtLimit);
        let due = |packet: &PacketState| packet.due == Some(now as u32);
        reached.note_if(packets.iter().any(due), Reach::DueAtLimit);
        let back = self.runs.map_or(false, |(_, last)| now < last);
        reached.note_if(back, Reach::TimeBack);
    }

    fn records(&self, budget: u32, ran: &Ran, reached: &mut Reached) {
        reached.note_if(budget == 0, Reach::BudgetZero);
        let mut sends = 0;
        let mut last: Option<&Record> = None;
        for record in &ran.records {
            match record[0] {
                1 => {
                    self.send(record, last, sends, budget, reached);
                    sends += 1;
                }
                2 => {
                    reached.note(Reach::ByTime);
                    let tie = last.map_or(false, |last| self.tied(last, record));
                    reached.note_if(tie, Reach::ByTimeTie);
                    sends += 1;
                }
                3 => {
                    reached.note(Reach::ByLoss);
                    sends += 1;
                }
                4 => self.dropped(record, reached),
                5 => reached.note(Reach::InputWait),
                _ => reached.note(Reach::WindowWait),
            }
            last = Some(record);
        }
    }

    fn send(&self, record: &Record, last: Option<&Record>, sends: u32, budget: u32, reached: &mut Reached) {
        let number = word(record, 4);
        reached.note_if(record[1] & 1 == 1, Reach::Flush);
        let after = |last: &Record| last[0] == 1 && distance(word(last, 4), number) == 1;
        let pair = last.map_or(false, after);
        if record[1] & 1 == 1 || number % 16 != 0 || !pair {
            return;
        }
        reached.note_if(sends < budget, Reach::SixteenthWithin);
        reached.note_if(sends >= budget, Reach::SixteenthPast);
        if let Some(front) = self.after.packets.first() {
            let past = distance(front.number, number) > u64::from(self.settings.window);
            reached.note_if(past, Reach::SixteenthWindow);
        }
    }

    /// Whether two packets resent by time had the same resend time.
    fn tied(&self, a: &Record, b: &Record) -> bool {
        let due = |record: &Record| {
            let packets = &self.before.packets;
            let front = packets.first()?.number;
            packets.get(distance(front, word(record, 4)) as usize)?.due
        };
        a[0] == 2 && due(a) == due(b)
    }

    fn dropped(&self, record: &Record, reached: &mut Reached) {
        let count = distance(word(record, 4), word(record, 8)) as usize;
        reached.note(Reach::LateDrop);
        reached.note_if(count < self.before.packets.len(), Reach::LateDropSome);
        for packet in self.before.packets.iter().take(count) {
            reached.note_if(packet.count == 0, Reach::LateDropUnsent);
            reached.note_if(packet.count > 0, Reach::LateDropSent);
            reached.note_if(self.lost(packet), Reach::LateDropLost);
        }
    }
}
