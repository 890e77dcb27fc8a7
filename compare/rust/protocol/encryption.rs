//! Stands in for encryption, which isn't built: every packet passes as it is.

use crate::packet::{DataPacket, KeyingMaterialMessage};

#[derive(Debug)]
pub struct Encryption;

impl Encryption {
    pub fn new(_cipher: Option<()>) -> Self {
        Encryption
    }

    pub fn encrypt(&mut self, packet: DataPacket) -> Option<(usize, DataPacket, Option<KeyingMaterialMessage>)> {
        Some((0, packet, None))
    }

    pub fn handle_key_refresh_response(&mut self, _: KeyingMaterialMessage) -> Result<(), ()> {
        Ok(())
    }
}
