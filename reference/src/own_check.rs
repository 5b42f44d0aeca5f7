//! A check of ours that waits for its answer.

use crate::packet::{
    acknowledgement, esp_info_body, write_parameter, ECHO_REQUEST_SIGNED, ESP_INFO, SEQ,
};

/// Seconds after its issue at which a check is sent again.
pub const MOMENTS: [u64; 4] = [1, 2, 4, 8];

/// Seconds after its issue from which on a tick gives a check up.
pub const GIVEN_UP_AFTER: u64 = 16;

/// What an UNVERIFIED locator carries.
#[derive(Clone, Copy, Debug, PartialEq, Eq)]
pub struct OwnCheck {
    pub nonce: u64,
    /// Its Update ID, by which it is known.
    pub id: u64,
    /// Stored time of the Move that gave it.
    pub issued: u64,
    /// Count of resends. A resend raises it to the number of moments reached, so
    /// moments that no tick met count too.
    pub resends: usize,
}

impl OwnCheck {
    /// Seconds from its issue to a time that is not before it.
    pub fn age(&self, time: u64) -> u64 {
        time - self.issued
    }

    /// "whose count is below the number of moments reached"
    pub fn is_due(&self, time: u64) -> bool {
        self.resends < moments_reached(self.age(time))
    }

    /// "16 or more seconds after issue"
    pub fn is_over(&self, time: u64) -> bool {
        self.age(time) >= GIVEN_UP_AFTER
    }

    /// "ESP_INFO (KEYMAT Index 0, both SPIs the inbound one), SEQ, ACK of the
    /// peer's ID, ECHO_REQUEST_SIGNED with 8 nonce bytes": 48 bytes in the reply
    /// to a Move. A resend is "the 48-byte form without its ACK", 40 bytes.
    pub fn bytes(&self, inbound: u32, peer_id: Option<u32>) -> Vec<u8> {
        let id = u32::try_from(self.id).expect("refusal 11 keeps own IDs below 2^32");
        let mut bytes = write_parameter(ESP_INFO, &esp_info_body(0, inbound, inbound));
        bytes.extend(write_parameter(SEQ, &id.to_be_bytes()));
        bytes.extend(peer_id.into_iter().flat_map(acknowledgement));
        let nonce = self.nonce.to_be_bytes();
        bytes.extend(write_parameter(ECHO_REQUEST_SIGNED, &nonce));
        bytes
    }
}

/// How many of the moments have come so many seconds after issue.
pub fn moments_reached(age: u64) -> usize {
    MOMENTS.iter().filter(|moment| **moment <= age).count()
}
