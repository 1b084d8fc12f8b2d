//! The sale desk: protected media packets in RFC 4571 frames come in, the opened ones go out.
//!
//! Until a packet is let in, each is tried by a fresh receiver of its own SSRC. The first let in
//! fixes SSRC and receiver for good.

pub mod framing;
pub mod stream;

use crate::context::Receiver;
use crate::settings::{Integrity, SetUp, Start, MASTER_KEY_LENGTH, MAX_PLAIN_LENGTH, SALT_LENGTH};

/// Bytes of the key file: master key, then master salt.
pub const KEY_FILE_LENGTH: usize = MASTER_KEY_LENGTH + SALT_LENGTH;
/// The longest packet that is not skipped, its frame's two length bytes left out.
pub const MAX_PACKET_LENGTH: usize = MAX_PLAIN_LENGTH + TAG_LENGTH as usize;

/// Bytes of the media tag.
const TAG_LENGTH: u8 = 10;
/// The number of AES in counter mode.
const AES: u8 = 1;
/// Where the desk's receivers start.
const START: Start = Start { rollover_count: 0, last_number: None };

/// The desk's set-up for a stream.
///
/// # Panics
///
/// For a key of other than [`KEY_FILE_LENGTH`] bytes.
pub fn set_up(key: &[u8], ssrc: u32) -> SetUp {
    assert_eq!(key.len(), KEY_FILE_LENGTH, "bytes of the key file");
    let (master_key, master_salt) = key.split_at(MASTER_KEY_LENGTH);
    SetUp {
        tag_length: TAG_LENGTH,
        cipher: AES,
        ssrc,
        master_key: master_key.to_vec(),
        master_salt: master_salt.to_vec(),
        mki: Vec::new(),
        integrity: Integrity::HmacSha1,
    }
}

/// What the desk writes, given the key file's bytes and the whole input. A key file that is not
/// there is one of no bytes.
pub fn output(key: &[u8], input: &[u8]) -> Vec<u8> {
    if key.len() != KEY_FILE_LENGTH {
        return Vec::new();
    }
    let mut desk = Desk { key, fixed: None };
    let mut written = Vec::new();
    for packet in framing::packets(input).filter(|packet| packet.len() <= MAX_PACKET_LENGTH) {
        if let Some(opened) = desk.open(packet) {
            written.extend(framing::frame(&opened));
        }
    }
    written
}

/// The desk between two packets.
struct Desk<'a> {
    /// Master key and salt.
    key: &'a [u8],
    /// The receiver that let the first packet in, once there is one.
    fixed: Option<Receiver>,
}

impl Desk<'_> {
    /// The opened packet, or None for a refused one.
    fn open(&mut self, packet: &[u8]) -> Option<Vec<u8>> {
        match &mut self.fixed {
            Some(receiver) => open_with(receiver, packet),
            None => self.open_first(packet),
        }
    }

    /// Tries a packet under its own SSRC, which is fixed if the packet is let in.
    fn open_first(&mut self, packet: &[u8]) -> Option<Vec<u8>> {
        let (mut receiver, verdict) = Receiver::set_up(&set_up(self.key, ssrc(packet)?), START);
        verdict.ok()?;
        let opened = open_with(&mut receiver, packet)?;
        self.fixed = Some(receiver);
        Some(opened)
    }
}

/// The SSRC in a packet's bytes 8 to 11, if the packet has so many.
fn ssrc(packet: &[u8]) -> Option<u32> {
    packet.get(8..)?.first_chunk().map(|bytes| u32::from_be_bytes(*bytes))
}

/// The packet as a receiver opens it, or None if it refuses.
fn open_with(receiver: &mut Receiver, packet: &[u8]) -> Option<Vec<u8>> {
    let mut out = vec![0; packet.len()];
    let finished = receiver.receive_media(packet, &mut out).ok()?;
    out.truncate(finished.length);
    Some(out)
}
