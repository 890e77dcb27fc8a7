//! Stands in for the statistics: the counters that the sender's files touch.

#[derive(Debug, Default)]
pub struct SocketStatistics {
    pub tx_encrypted_data: u64,
    pub tx_dropped_data: u64,
    pub tx_dropped_bytes: u64,
    pub tx_loss_data: u64,
    pub tx_unique_data: u64,
    pub tx_retransmit_data: u64,
    pub rx_ack: u64,
    pub rx_light_ack: u64,
    pub rx_nak: u64,
}
