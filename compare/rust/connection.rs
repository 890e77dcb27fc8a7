//! Stands in for the connection's settings and status.

use std::time::{Duration, Instant};

use crate::{
    options::{LiveBandwidthMode, PacketCount, PacketSize},
    packet::{SeqNumber, SocketId},
};

#[derive(Clone, Debug)]
pub struct ConnectionSettings {
    pub socket_start_time: Instant,
    pub remote_sockid: SocketId,
    pub init_seq_num: SeqNumber,
    pub max_packet_size: PacketSize,
    pub max_flow_size: PacketCount,
    pub send_buffer_size: PacketCount,
    pub send_tsbpd_latency: Duration,
    pub cipher: Option<()>,
    pub bandwidth: LiveBandwidthMode,
}

/// Only whether the connection is draining.
#[derive(Debug, Default)]
pub struct ConnectionStatus {
    pub draining: bool,
}

impl ConnectionStatus {
    pub fn should_drain_send_buffer(&self) -> bool {
        self.draining
    }
}
