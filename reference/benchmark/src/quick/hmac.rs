//! HMAC-SHA1 (RFC 2104) with the states behind both pads kept.

use crate::sha1_forms::{bytes_of, finished, ring_written_out, State};
use reference::sha1::{BLOCK_LENGTH, DIGEST_LENGTH, INITIAL};

/// A key.
pub struct HmacSha1 {
    inner: State,
    outer: State,
}

impl HmacSha1 {
    /// A key that is no longer than a block.
    pub fn new(key: &[u8]) -> HmacSha1 {
        HmacSha1 { inner: padded(key, 0x36), outer: padded(key, 0x5c) }
    }

    /// The MAC of a message and the four bytes behind it.
    pub fn mac(&self, message: &[u8], end: [u8; 4]) -> [u8; DIGEST_LENGTH] {
        let inner = finished(self.inner, BLOCK_LENGTH, message, end, ring_written_out);
        let digest = bytes_of(inner);
        bytes_of(finished(self.outer, BLOCK_LENGTH, &digest, [], ring_written_out))
    }
}

/// The state behind the key with one of the two pads.
fn padded(key: &[u8], pad: u8) -> State {
    let mut block = [pad; BLOCK_LENGTH];
    block.iter_mut().zip(key).for_each(|(byte, key_byte)| *byte ^= key_byte);
    ring_written_out(INITIAL, &block)
}
