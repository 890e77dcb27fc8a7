//! Stands in for data packets. `wire_size` takes no argument, so the socket id
//! that every packet carries brings the wire overhead of the settings along.

use std::ops::BitOrAssign;

use bytes::Bytes;

use super::{MsgNumber, SeqNumber, TimeStamp};

#[derive(Clone, Copy, Debug, PartialEq, Eq)]
pub struct SocketId {
    pub id: u32,
    pub wire_overhead: u32,
}

#[derive(Clone, Copy, Debug, PartialEq, Eq)]
pub enum DataEncryption {
    None,
}

/// The two place bits.
#[derive(Clone, Copy, Debug, PartialEq, Eq)]
pub struct PacketLocation(u8);

impl PacketLocation {
    pub const FIRST: PacketLocation = PacketLocation(0b10);
    pub const MIDDLE: PacketLocation = PacketLocation(0b00);
    pub const LAST: PacketLocation = PacketLocation(0b01);

    pub fn contains(self, other: PacketLocation) -> bool {
        self.0 & other.0 == other.0
    }

    pub fn bits(self) -> u8 {
        self.0
    }
}

impl BitOrAssign for PacketLocation {
    fn bitor_assign(&mut self, other: PacketLocation) {
        self.0 |= other.0;
    }
}

#[derive(Clone, Debug, PartialEq, Eq)]
pub struct DataPacket {
    pub seq_number: SeqNumber,
    pub message_loc: PacketLocation,
    pub in_order_delivery: bool,
    pub encryption: DataEncryption,
    pub retransmitted: bool,
    pub message_number: MsgNumber,
    pub timestamp: TimeStamp,
    pub dest_sockid: SocketId,
    pub payload: Bytes,
}

impl DataPacket {
    /// Payload plus overhead (document 01, Message).
    pub fn wire_size(&self) -> usize {
        self.payload.len() + self.dest_sockid.wire_overhead as usize
    }
}
