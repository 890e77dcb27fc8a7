//! Settings and ACKs in the Rust's own types.

use std::time::{Duration, Instant};

use calls::{Mode, Settings};

use crate::{
    connection::ConnectionSettings,
    options::{DataRate, LiveBandwidthMode, PacketCount, PacketSize, Percent},
    packet::{Acknowledgement, FullAckSeqNumber, SeqNumber, SocketId},
    protocol::time::Rtt,
};

pub(super) fn connection_settings(start: Instant, settings: &Settings) -> ConnectionSettings {
    ConnectionSettings {
        socket_start_time: start,
        remote_sockid: SocketId { id: settings.id, wire_overhead: settings.overhead },
        init_seq_num: SeqNumber::new_truncate(settings.first),
        max_packet_size: PacketSize(u64::from(settings.size)),
        max_flow_size: PacketCount(u64::from(settings.window)),
        send_buffer_size: PacketCount(u64::from(settings.buffer)),
        send_tsbpd_latency: Duration::from_micros(settings.latency),
        cipher: None,
        bandwidth: bandwidth(settings.mode),
    }
}

pub(super) fn bandwidth(mode: Mode) -> LiveBandwidthMode {
    match mode {
        Mode::Input { rate, overhead } => {
            LiveBandwidthMode::Input { rate: DataRate(rate), overhead: Percent(overhead) }
        }
        Mode::Max(rate) => LiveBandwidthMode::Max(DataRate(rate)),
        Mode::Unlimited => LiveBandwidthMode::Unlimited,
        Mode::Estimated { expected, overhead } => {
            LiveBandwidthMode::Estimated { expected: DataRate(expected), overhead: Percent(overhead) }
        }
    }
}

pub(super) fn acknowledgement(ack: &calls::Ack) -> Acknowledgement {
    let ack_number = SeqNumber::new_truncate(ack.number);
    if ack.rtt.is_none() && ack.full.is_none() {
        return Acknowledgement::Lite(ack_number);
    }
    Acknowledgement::Other {
        ack_number,
        rtt: ack.rtt.map(|rtt| Rtt::new(rtt.mean, rtt.variance)),
        full_ack: ack.full.map(|full| FullAckSeqNumber(u64::from(full))),
    }
}
