//! Packets on a byte stream (RFC 4571, section 2).
//!
//! A frame is LENGTH, 16 bits in network byte order, and the packet. LENGTH counts the packet's
//! bytes and not its own; 0 is allowed.

use std::iter;

/// The frame of a packet.
///
/// # Panics
///
/// For a packet of more than 65,535 bytes, which no frame can hold.
pub fn frame(packet: &[u8]) -> Vec<u8> {
    let length = u16::try_from(packet.len()).expect("a frame holds at most 65,535 bytes");
    [&length.to_be_bytes(), packet].concat()
}

/// The packets of the frames that an input has whole, of any length, in order. A cut final frame
/// gives none.
pub fn packets(input: &[u8]) -> impl Iterator<Item = &[u8]> {
    let mut rest = input;
    iter::from_fn(move || {
        let (packet, after) = split_first_frame(rest)?;
        rest = after;
        Some(packet)
    })
}

/// The first frame's packet and what follows it; None if the frame is not there whole.
fn split_first_frame(input: &[u8]) -> Option<(&[u8], &[u8])> {
    let (length, after) = input.split_first_chunk()?;
    after.split_at_checked(usize::from(u16::from_be_bytes(*length)))
}
