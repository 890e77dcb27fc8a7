//! Where the sender's bends take place: each function leaves alone what it is
//! given unless the bend is one of its own.

use std::{borrow::Cow, ops::Range};

use calls::{Loss, LossRun, Ran, Record};

use crate::{
    bend::Bend,
    flat::{AckAnswer, Areas, Flat, Held, MessageAnswer, PayloadAnswer, Refused, ReportsAnswer},
};

pub fn bytes(bend: Bend, payload: &[u8]) -> Cow<'_, [u8]> {
    let mut bytes = Cow::Borrowed(payload);
    if bend == Bend::LastByteTurned && !payload.is_empty() {
        bytes.to_mut()[payload.len() - 1] ^= 0xff;
    }
    bytes
}

pub fn message(bend: Bend, answer: &mut MessageAnswer) {
    match bend {
        Bend::MadeOneMore => answer.made += 1,
        Bend::RemovedUntold => answer.removed = 0,
        Bend::WireBytesOneLess => answer.bytes = answer.bytes.saturating_sub(1),
        Bend::PeriodUntold => answer.period = 0,
        _ => {}
    }
}

pub fn ack(bend: Bend, given: &Flat, answer: &mut AckAnswer) {
    match bend {
        Bend::ReceivedOneMore => answer.done.received += 1,
        Bend::RecoveredUntold => answer.done.recovered = 0,
        Bend::FullUntold => (answer.done.full, answer.done.full_number) = (false, 0),
        Bend::StaleRttLost if answer.refusal.number == 11 => answer.sender = *given,
        _ => {}
    }
}

pub fn runs(bend: Bend, runs: &mut Vec<LossRun>) {
    if bend == Bend::LastRunUntold {
        runs.pop();
    }
    for run in runs {
        match bend {
            Bend::KindsTurned if run.loss == Loss::Ignored => run.loss = Loss::Dropped,
            Bend::KindsTurned if run.loss == Loss::Dropped => run.loss = Loss::Ignored,
            Bend::FirstOneUp => run.first += 1,
            Bend::EndIncluded => run.end = run.end.wrapping_sub(1),
            _ => {}
        }
    }
}

pub fn draining(bend: Bend, draining: bool) -> bool {
    draining && bend != Bend::DrainNotGiven
}

pub fn ran(bend: Bend, kept: &Flat, ran: &mut Ran) {
    match bend {
        Bend::LastRecordUntold => ran.records.truncate(ran.records.len().saturating_sub(1)),
        Bend::LeftOneMore => ran.left = ran.left.wrapping_add(1),
        _ => {}
    }
    for at in &mut ran.records {
        match at[0] {
            1..=3 => packet(bend, at),
            _ => no_packet(bend, kept.settings.flow, at),
        }
    }
}

/// A record that says to send a packet.
fn packet(bend: Bend, record: &mut Record) {
    match bend {
        Bend::TimeAsLoss if record[0] == 2 => record[0] = 3,
        Bend::PlaceUntold => record[1] &= 0x3f,
        Bend::AgainUntold => record[1] &= 0xfe,
        Bend::LengthOneMore => record[2] = record[2].wrapping_add(1),
        Bend::NumberOneUp => record[4] = record[4].wrapping_add(1),
        Bend::MessageUntold => record[8..12].fill(0),
        Bend::StampUntold => record[12..16].fill(0),
        Bend::TimeIsStamp => record[20..24].fill(0),
        _ => {}
    }
}

/// A drop, or a wait.
fn no_packet(bend: Bend, flow: u32, record: &mut Record) {
    match (bend, record[0]) {
        (Bend::DropEndIncluded, 4) => record[8] = record[8].wrapping_sub(1),
        (Bend::WaitsTurned, 5) => record[0] = 6,
        (Bend::WaitsTurned, 6) => record[0] = 5,
        (Bend::UnackedOneLess, 6) => record[8] = record[8].wrapping_sub(1),
        (Bend::WindowAsSet, 6) => record[12..16].copy_from_slice(&flow.to_le_bytes()),
        _ => {}
    }
}

/// Where the payload is read.
pub fn payload(bend: Bend, answer: &PayloadAnswer, kept: &Flat, lent: &Areas) -> Range<usize> {
    let (mut place, mut len) = (answer.place, answer.len);
    match bend {
        Bend::NextSlot => place = (place + kept.settings.size as usize) % lent.store.len(),
        Bend::LastByteUntold => len = len.saturating_sub(1),
        _ => {}
    }
    place..place + len
}

/// Place and retransmitted flag of a record, for its header.
pub fn header(bend: Bend, record: &Record) -> (u32, bool) {
    let place = match bend {
        Bend::HeaderPlaceLost => 0,
        _ => u32::from(record[1] >> 6),
    };
    (place, record[1] & 1 == 1 && bend != Bend::HeaderNeverAgain)
}

pub fn reports(bend: Bend, answer: &mut ReportsAnswer) {
    let done = &mut answer.done;
    match bend {
        Bend::FlushedTurned => done.is_flushed ^= true,
        Bend::ToSendTurned => done.has_packets_to_send ^= true,
        Bend::PacketsOneMore => done.len += 1,
        Bend::BytesOneMore => done.len_bytes += 1,
        Bend::TimeUntold => done.duration = 0,
        _ => {}
    }
}

pub fn refusal(bend: Bend, given: Refused) -> Refused {
    match bend {
        Bend::NumberOfRefusal if given.number > 0 => Refused { number: given.number + 1, ..given },
        Bend::ValuesTurned => Refused { first: given.second, second: given.first, ..given },
        _ => given,
    }
}

/// What is kept and lent after an accepted call.
pub fn kept(bend: Bend, before: &Flat, kept: &mut Flat, lent: &mut Areas) {
    let books = &mut kept.books;
    match bend {
        Bend::HeldLost => books.held = Held::default(),
        Bend::ExpectedStays => books.expected = before.books.expected,
        Bend::LossForgotten => books.lost = books.lost.saturating_sub(1),
        Bend::ResendOneLater if books.sent > 0 => lent.ring[6 * books.ring.slot + 5] += 1,
        Bend::StoreTurned => lent.store[0] ^= 0xff,
        _ => {}
    }
}

/// What is kept and lent after a refused call.
pub fn refused(bend: Bend, kept: &mut Flat, lent: &mut Areas) {
    match bend {
        Bend::RefusedSender => kept.books.bytes += 1,
        Bend::RefusedRing => lent.ring[0] ^= 1,
        Bend::RefusedLost => lent.lost[0] ^= 1,
        Bend::RefusedStore => lent.store.iter_mut().for_each(|byte| *byte ^= 1),
        _ => {}
    }
}

/// A list lent for an answer.
pub fn list<T: From<u8>>(bend: Bend, refusal: Refused, list: &mut [T]) {
    match bend {
        Bend::RefusedList if refusal.number == 0 => {}
        Bend::RefusedList | Bend::ListPastAnswer => {
            if let Some(last) = list.last_mut() {
                *last = T::from(0);
            }
        }
        _ => {}
    }
}
