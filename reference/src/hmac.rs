//! HMAC-SHA1 (RFC 2104).

use crate::sha1::{Sha1, BLOCK_LENGTH, DIGEST_LENGTH};

/// A key with its two padded blocks already hashed, so that a packet doesn't pay for them.
#[derive(Clone, Debug, PartialEq, Eq)]
pub struct HmacSha1 {
    inner: Sha1,
    outer: Sha1,
}

impl HmacSha1 {
    /// A key longer than a block is hashed first; a shorter one is padded with zeros.
    pub fn new(key: &[u8]) -> HmacSha1 {
        let mut block = [0; BLOCK_LENGTH];
        if key.len() > BLOCK_LENGTH {
            block[..DIGEST_LENGTH].copy_from_slice(&Sha1::digest(key));
        } else {
            block[..key.len()].copy_from_slice(key);
        }
        HmacSha1 { inner: padded(&block, 0x36), outer: padded(&block, 0x5c) }
    }

    /// The MAC of the message that the parts make, one after the other.
    pub fn mac(&self, parts: &[&[u8]]) -> [u8; DIGEST_LENGTH] {
        let mut inner = self.inner.clone();
        for part in parts {
            inner.update(part);
        }
        let mut outer = self.outer.clone();
        outer.update(&inner.finish());
        outer.finish()
    }
}

fn padded(key: &[u8; BLOCK_LENGTH], pad: u8) -> Sha1 {
    let mut hash = Sha1::new();
    hash.update(&key.map(|byte| byte ^ pad));
    hash
}
