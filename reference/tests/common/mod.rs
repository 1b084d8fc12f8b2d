//! What several test files use.
#![allow(dead_code)]

use reference::context::{Receiver, Sender};
use reference::settings::{Integrity, SetUp, Start};

/// Bytes from hexadecimal digits.
pub fn bytes(hex: &str) -> Vec<u8> {
    let digits: Vec<u8> = hex.chars().filter_map(|c| c.to_digit(16)).map(|d| d as u8).collect();
    digits.chunks_exact(2).map(|pair| pair[0] << 4 | pair[1]).collect()
}

/// The master key of RFC 3711, B.3.
pub const MASTER_KEY: &str = "e1f97a0d3e018be0d64fa32c06de4139";
/// The master salt of RFC 3711, B.3.
pub const MASTER_SALT: &str = "0ec675ad498afeebb6960b3aabe6";
/// The SSRC of the whole packets.
pub const SSRC: u32 = 0xcafebabe;

/// AES, tag of 10, no MKI, keys of B.3.
pub fn set_up() -> SetUp {
    SetUp {
        tag_length: 10,
        cipher: 1,
        ssrc: SSRC,
        master_key: bytes(MASTER_KEY),
        master_salt: bytes(MASTER_SALT),
        mki: Vec::new(),
        integrity: Integrity::HmacSha1,
    }
}

/// The same under RCCm2, whose tag has 14 bytes.
pub fn set_up_rccm2(rate: u16) -> SetUp {
    SetUp { tag_length: 14, integrity: Integrity::Rccm2 { rate }, ..set_up() }
}

pub fn sender(values: &SetUp) -> Sender {
    let (sender, verdict) = Sender::set_up(values);
    assert_eq!(verdict, Ok(()));
    sender
}

pub fn receiver(values: &SetUp, rollover_count: u32, last_number: Option<u16>) -> Receiver {
    let (receiver, verdict) = Receiver::set_up(values, Start { rollover_count, last_number });
    assert_eq!(verdict, Ok(()));
    receiver
}

/// A media packet with a payload of so many bytes.
pub fn rtp(number: u16, payload: usize) -> Vec<u8> {
    let mut packet = bytes("800f0000decafbadcafebabe");
    packet[2..4].copy_from_slice(&number.to_be_bytes());
    packet.extend(std::iter::repeat_n(0xab, payload));
    packet
}

/// A control packet with so many bytes behind the clear part.
pub fn rtcp(text: usize) -> Vec<u8> {
    let mut packet = bytes("81c8000bcafebabe");
    packet.extend(std::iter::repeat_n(0xab, text));
    packet
}
