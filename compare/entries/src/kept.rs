//! What a host keeps and lends, and the books, read where docs/BOOKS.md says that
//! they lie.

use std::mem;

use calls::{payload_sum, PacingState, PacketState, Record, Refusal, Rtt, State};

use crate::{
    bend::Bend,
    bent,
    flat::{Areas, Flat, Pacing, Refused},
    table::Table,
};

/// Sequence numbers are below this.
const NUMBERS: usize = 1 << 31;
/// Words of a packet in the ring.
pub const WIDTH: usize = 6;
/// What lent lists and areas hold before they are written.
const BLANK: u8 = 0xa5;

/// A list lent for an answer: so many blank bytes or words.
pub fn blank_list<T: Copy + From<u8>>(list: &mut Vec<T>, len: usize) {
    list.clear();
    list.resize(len, T::from(BLANK));
}

/// The refusal that the numbers stand for; values that it doesn't name are 0.
fn told(given: Refused) -> Result<(), Refusal> {
    let values = [given.first, given.second, given.third];
    let named = match given.number {
        0 => return Ok(()),
        10 => 3,
        11 => 2,
        12 => 1,
        1..=14 => 0,
        other => panic!("there is no refusal {other}"),
    };
    assert!(values[named..].iter().all(|value| *value == 0), "a refusal tells values that it doesn't name: {given:?}");
    Err(Refusal::with(given.number, values))
}

/// What pacing keeps, as it is compared.
pub fn pacing_state(pacing: &Pacing) -> PacingState {
    PacingState {
        next: (pacing.begun == 1).then_some(pacing.next),
        packets: pacing.packets.count,
        bytes: pacing.bytes.count,
        packet_mean: pacing.packets.mean,
        packet_variance: pacing.packets.variance,
        byte_mean: pacing.bytes.mean,
        byte_variance: pacing.bytes.variance,
    }
}

/// A word of the ring that has no more bits than what it holds.
fn narrow<T: TryFrom<u64>>(word: u64) -> T {
    let narrowed = T::try_from(word).ok();
    narrowed.expect("a word of a packet is in its range")
}

/// What a host has between two calls.
#[derive(Clone)]
pub struct Kept {
    pub table: &'static Table,
    pub flat: Flat,
    pub lent: Areas,
    /// The lists lent for the answers of loss reports and runs.
    pub runs: Vec<u32>,
    pub records: Vec<u8>,
    /// Of the last accepted run.
    pub last_run: Vec<Record>,
    pub bend: Bend,
}

impl Kept {
    /// The areas' sizes follow from the capacity; the store's from the packet
    /// size too.
    pub fn new(table: &'static Table, flat: Flat, bend: Bend) -> Self {
        let capacity = flat.settings.buffer.max(1) as usize;
        let lent = Areas {
            ring: vec![u64::MAX; capacity * WIDTH],
            lost: vec![u32::MAX; capacity],
            store: vec![BLANK; capacity * flat.settings.size as usize],
        };
        Kept { table, flat, lent, runs: Vec::new(), records: Vec::new(), last_run: Vec::new(), bend }
    }

    /// After a call: takes over the sender that it gave back, a refused call's too.
    pub fn settle(&mut self, refusal: Refused, back: Flat) -> Result<(), Refusal> {
        let before = mem::replace(&mut self.flat, back);
        let refusal = bent::refusal(self.bend, refusal);
        if refusal.number > 0 {
            bent::refused(self.bend, &mut self.flat, &mut self.lent);
        } else {
            bent::kept(self.bend, &before, &mut self.flat, &mut self.lent);
        }
        told(refusal)
    }

    /// After a call that gives back no sender.
    pub fn answered(&self, refusal: Refused) -> Result<(), Refusal> {
        told(bent::refusal(self.bend, refusal))
    }

    /// What isn't the same, number by number and byte by byte, in what another host
    /// keeps and lends.
    pub fn differs(&self, other: &Kept) -> Option<&'static str> {
        let (a, b) = (&self.lent, &other.lent);
        let same = [
            ("the sender", self.flat == other.flat),
            ("the ring", a.ring == b.ring),
            ("the loss list", a.lost == b.lost),
            ("the store", a.store == b.store),
            ("the list of runs", self.runs == other.runs),
            ("the list of records", self.records == other.records),
        ];
        same.iter().find(|(_, same)| !same).map(|(what, _)| *what)
    }

    /// The packet size.
    fn size(&self) -> usize {
        self.flat.settings.size as usize
    }

    /// The number so many after the front's.
    fn number(&self, ahead: usize) -> u32 {
        ((self.flat.books.front as usize + ahead) % NUMBERS) as u32
    }

    /// The packet so many after the front's.
    fn packet(&self, index: usize) -> PacketState {
        let books = &self.flat.books;
        let slot = (books.ring.slot + index) % books.ring.cap;
        let words = &self.lent.ring[slot * WIDTH..][..WIDTH];
        let payload = &self.lent.store[slot * self.size()..][..words[3] as usize];
        PacketState {
            number: self.number(index),
            time: words[0],
            message: narrow(words[1]),
            place: narrow(words[2]),
            length: narrow(words[3]),
            count: narrow(words[4]),
            due: (index < books.sent as usize).then_some(words[5] as u32),
            sum: payload_sum(payload),
        }
    }

    /// The books; the loss list lies farthest first.
    pub fn state(&self, out: &mut State) {
        let books = &self.flat.books;
        out.packets.clear();
        let packets = (0..books.ring.len).map(|index| self.packet(index));
        out.packets.extend(packets);
        out.next_unsent = self.number(books.sent as usize);
        out.next_number = self.number(books.ring.len);
        out.next_message = books.message;
        out.lost.clear();
        out.lost.extend(self.lent.lost[..books.lost].iter().rev());
        out.rtt = Rtt { mean: books.rtt.mean, variance: books.rtt.variance };
        out.bytes = books.bytes;
        out.expected_full = books.expected;
        out.resend_entries = u64::from(books.sent);
        out.pacing = pacing_state(&self.flat.pacing);
    }
}
