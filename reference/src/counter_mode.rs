//! AES in counter mode (RFC 3711, 4.1.1).
//!
//! 128-bit values are numbers here, as they are in the RFC.

use crate::aes::{Aes, BLOCK_LENGTH};

/// The packet's first counter: salt * 2^16 XOR SSRC * 2^64 XOR index * 2^16.
pub fn initial_counter(salt: u128, ssrc: u32, index: u64) -> u128 {
    (salt << 16) ^ (u128::from(ssrc) << 64) ^ (u128::from(index) << 16)
}

/// XORs the text with E(IV), E(IV + 1), and so on. Done twice, it gives the text back.
pub fn xor_keystream(cipher: &Aes, initial: u128, text: &mut [u8]) {
    let mut counter = initial;
    for chunk in text.chunks_mut(BLOCK_LENGTH) {
        let block = cipher.encrypt(&counter.to_be_bytes());
        for (byte, key_byte) in chunk.iter_mut().zip(block) {
            *byte ^= key_byte;
        }
        counter = counter.wrapping_add(1);
    }
}

/// The first bytes of the keystream itself.
pub fn keystream(cipher: &Aes, initial: u128, length: usize) -> Vec<u8> {
    let mut bytes = vec![0; length];
    xor_keystream(cipher, initial, &mut bytes);
    bytes
}
