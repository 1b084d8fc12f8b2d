//! Session keys from a master key (RFC 3711, 4.3), with a key derivation rate of zero.

use crate::aes::Aes;
use crate::counter_mode;
use crate::hmac::HmacSha1;
use crate::settings::{SALT_LENGTH, TAG_KEY_LENGTH};

/// The labels of one kind of packet (RFC 3711, 4.3.1 and 4.3.2).
#[derive(Clone, Copy, Debug, PartialEq, Eq)]
pub struct Labels {
    cipher_key: u8,
    tag_key: u8,
    salt: u8,
}

/// Labels of SRTP.
pub const MEDIA: Labels = Labels { cipher_key: 0, tag_key: 1, salt: 2 };
/// Labels of SRTCP.
pub const CONTROL: Labels = Labels { cipher_key: 3, tag_key: 4, salt: 5 };

/// The keys that packets of one kind are protected under.
#[derive(Clone, Debug, PartialEq, Eq)]
pub struct SessionKeys {
    /// The cipher key, expanded.
    pub cipher: Aes,
    /// The salt as a number of 112 bits.
    pub salt: u128,
    /// The tag key, its pads hashed.
    pub tag: HmacSha1,
}

impl SessionKeys {
    /// None if the master key's length is no AES key's. The session cipher key is as long as
    /// the master key.
    pub fn derive(master_key: &[u8], master_salt: &[u8], labels: Labels) -> Option<SessionKeys> {
        let master = Aes::new(master_key)?;
        let salt = number(master_salt);
        let key = |label, length| derived_key(&master, salt, label, length);
        Some(SessionKeys {
            cipher: Aes::new(&key(labels.cipher_key, master_key.len()))?,
            salt: number(&key(labels.salt, SALT_LENGTH)),
            tag: HmacSha1::new(&key(labels.tag_key, TAG_KEY_LENGTH)),
        })
    }
}

/// The front of the keystream under the master key from block x * 2^16, where
/// x = label * 2^48 XOR master salt.
pub fn derived_key(master: &Aes, master_salt: u128, label: u8, length: usize) -> Vec<u8> {
    let x = (u128::from(label) << 48) ^ master_salt;
    counter_mode::keystream(master, x << 16, length)
}

/// Bytes as a number, big end first.
pub fn number(bytes: &[u8]) -> u128 {
    bytes.iter().fold(0, |sum, byte| sum << 8 | u128::from(*byte))
}
