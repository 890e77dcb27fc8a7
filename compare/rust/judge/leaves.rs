//! The leaves of the Rust.

use std::time::{Duration, Instant};

use bytes::Bytes;
use calls::{Answer, LeafCall, Piece, Settings, Which};

use super::types::{bandwidth, connection_settings};
use crate::{
    action::{self, Paced},
    packet::{DataEncryption, DataPacket, MsgNumber, PacketLocation, SeqNumber, SocketId, TimeStamp},
    protocol::{
        sender::Sender,
        time::{Rtt, Timer, Timers},
    },
};

/// The timers, pacing, encapsulation and data packets of the Rust. It refuses
/// nothing.
pub struct LeavesJudge {
    start: Instant,
    timer: Option<Timer>,
    timers: Option<Timers>,
    pacing: Option<Box<dyn Paced>>,
}

impl Default for LeavesJudge {
    fn default() -> Self {
        LeavesJudge { start: Instant::now(), timer: None, timers: None, pacing: None }
    }
}

fn check(timers: &mut Timers, which: Which, now: Instant) -> Option<u32> {
    match which {
        Which::Snd => timers.check_snd(now),
        Which::FullAck => timers.check_full_ack(now),
        Which::Nak => timers.check_nak(now),
        Which::PeerIdle => timers.check_peer_idle_timeout(now),
        Which::Statistics => timers.check_statistics(now),
    }
}

impl LeavesJudge {
    fn at(&self, nanos: u64) -> Instant {
        self.start + Duration::from_nanos(nanos)
    }

    fn since(&self, at: Instant) -> Answer {
        Answer::At((at - self.start).as_nanos() as u64)
    }

    fn make(&mut self, call: &LeafCall) -> Answer {
        let nanos = Duration::from_nanos;
        match call {
            LeafCall::TimerNew { now, period } => {
                self.timer = Some(Timer::new(self.at(*now), nanos(*period)));
            }
            LeafCall::TimersNew { now, statistics, idle } => {
                let now = self.at(*now);
                self.timers = Some(Timers::new(now, nanos(*statistics), nanos(*idle)));
            }
            LeafCall::PacingNew { mode } => self.pacing = Some(Sender::pacing(bandwidth(*mode))),
            _ => return Answer::Nothing,
        }
        Answer::Done
    }

    fn call_timer(&mut self, call: &LeafCall) -> Option<Answer> {
        let (start, at) = (self.start, |nanos| self.start + Duration::from_nanos(nanos));
        let timer = self.timer.as_mut()?;
        match call {
            LeafCall::TimerSet { period } => timer.set_period(Duration::from_nanos(*period)),
            LeafCall::TimerReset { now } => timer.reset(at(*now)),
            LeafCall::TimerCheck { now } => return Some(Answer::Fired(timer.check_expired(at(*now)))),
            LeafCall::TimerNext {} => {
                let next = timer.next_instant();
                return Some(self.since(next));
            }
            _ => return Some(Answer::Timer(timer.books(start))),
        }
        Some(Answer::Done)
    }

    fn call_timers(&mut self, call: &LeafCall) -> Option<Answer> {
        let (start, at) = (self.start, |nanos| self.start + Duration::from_nanos(nanos));
        let timers = self.timers.as_mut()?;
        match call {
            LeafCall::TimersCheck { which, now } => return Some(Answer::Fired(check(timers, *which, at(*now)))),
            LeafCall::TimersWake { now, to_send, message, unacked } => {
                let next = timers.next_timer(at(*now), *to_send, message.map(at), *unacked);
                return Some(self.since(next));
            }
            LeafCall::TimersSnd { period } => {
                timers.update_snd_period(Duration::from_nanos(*period));
            }
            LeafCall::TimersRtt { rtt } => timers.update_rtt(&Rtt::new(rtt.mean, rtt.variance)),
            LeafCall::TimersResetExp { now } => timers.reset_exp(at(*now)),
            LeafCall::TimersPresetExp { count } => timers.preset_exp_count(*count),
            _ => return Some(Answer::Timers(timers.books(start))),
        }
        Some(Answer::Done)
    }

    fn call_pacing(&mut self, call: &LeafCall) -> Option<Answer> {
        let start = self.start;
        let pacing = self.pacing.as_mut()?;
        Some(match call {
            LeafCall::PacingInput { now, packets, bytes } => {
                let now = start + Duration::from_micros(*now);
                Answer::Period(pacing.input(now, *packets, *bytes))
            }
            _ => Answer::Pacing(pacing.state(start)),
        })
    }

    fn split(&self, size: u32, length: u32) -> Answer {
        let settings = Settings { size, buffer: 1, window: 1, latency: 0, ..Settings::default() };
        let connection = connection_settings(self.start, &settings);
        let data = Bytes::from(&vec![0; length as usize][..]);
        let piece =
            |packet: DataPacket| Piece { place: packet.message_loc.bits(), length: packet.payload.len() as u32 };
        let packets = Sender::split(&connection, data);
        Answer::Pieces(packets.into_iter().map(piece).collect())
    }
}

/// A packet without payload, for its header.
fn packet(call: &LeafCall) -> Option<DataPacket> {
    let (number, bits, again, message, stamp, id) = match call {
        LeafCall::Header { number, place, again, message, stamp, id } => {
            (*number, *place, *again, *message, *stamp, id.0)
        }
        _ => return None,
    };
    let mut place = PacketLocation::MIDDLE;
    if bits & 0b10 != 0 {
        place |= PacketLocation::FIRST;
    }
    if bits & 0b01 != 0 {
        place |= PacketLocation::LAST;
    }
    Some(DataPacket {
        seq_number: SeqNumber::new_truncate(number),
        message_loc: place,
        in_order_delivery: false,
        encryption: DataEncryption::None,
        retransmitted: again,
        message_number: MsgNumber::new_truncate(message),
        timestamp: TimeStamp::from_micros(u64::from(stamp)),
        dest_sockid: SocketId { id, wire_overhead: 0 },
        payload: Bytes::from(&[][..]),
    })
}

impl calls::Leaves for LeavesJudge {
    fn call(&mut self, call: &LeafCall) -> Answer {
        use LeafCall::*;
        let answer = match call {
            TimerNew { .. } | TimersNew { .. } | PacingNew { .. } => Some(self.make(call)),
            Split { size, length } => Some(self.split(*size, *length)),
            Header { .. } => packet(call).map(|packet| Answer::Header(action::header(&packet))),
            TimerSet { .. } | TimerReset { .. } | TimerCheck { .. } | TimerNext {} | TimerState {} => {
                self.call_timer(call)
            }
            PacingInput { .. } | PacingState {} => self.call_pacing(call),
            _ => self.call_timers(call),
        };
        answer.unwrap_or(Answer::Nothing)
    }
}
