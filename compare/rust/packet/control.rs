//! Stands in for the control packets that a sender takes or gives out.

use std::ops::Range;

use super::{FullAckSeqNumber, MsgNumber, Rtt, SeqNumber};

/// An ACK: a number alone, or with what a small or full one brings.
#[derive(Clone, Debug)]
pub enum Acknowledgement {
    Lite(SeqNumber),
    Other { ack_number: SeqNumber, rtt: Option<Rtt>, full_ack: Option<FullAckSeqNumber> },
}

impl Acknowledgement {
    pub fn ack_number(&self) -> SeqNumber {
        match self {
            Acknowledgement::Lite(number) => *number,
            Acknowledgement::Other { ack_number, .. } => *ack_number,
        }
    }

    pub fn full_ack_seq_number(&self) -> Option<FullAckSeqNumber> {
        match self {
            Acknowledgement::Lite(_) => None,
            Acknowledgement::Other { full_ack, .. } => *full_ack,
        }
    }

    pub fn rtt(&self) -> Option<Rtt> {
        match self {
            Acknowledgement::Lite(_) => None,
            Acknowledgement::Other { rtt, .. } => rtt.clone(),
        }
    }
}

#[derive(Clone, Debug)]
pub struct KeyingMaterialMessage;

#[derive(Clone, Debug, PartialEq, Eq)]
pub enum ControlTypes {
    Ack2(FullAckSeqNumber),
    DropRequest { message: MsgNumber, range: Range<SeqNumber> },
    KeyRefreshRequest,
}

impl ControlTypes {
    pub fn new_drop_request(message: MsgNumber, range: Range<SeqNumber>) -> Self {
        ControlTypes::DropRequest { message, range }
    }

    pub fn new_key_refresh_request(_: KeyingMaterialMessage) -> Self {
        ControlTypes::KeyRefreshRequest
    }
}
