//! Plain packets of every size and header.

use crate::random::Random;
use crate::settings::MAX_PLAIN_LENGTH;

/// A media packet with a readable header.
pub fn media(random: &mut Random, ssrc: u32, number: u16) -> Vec<u8> {
    let sources = if random.percent(25) { random.within(0..=15) as u8 } else { 0 };
    let has_extension = random.percent(30);
    let padding_bit = u8::from(random.percent(10)) << 5;
    let mut packet = vec![0x80 | padding_bit | u8::from(has_extension) << 4 | sources];
    packet.push(random.byte());
    packet.extend_from_slice(&number.to_be_bytes());
    packet.extend(random.bytes(4));
    packet.extend_from_slice(&ssrc.to_be_bytes());
    packet.extend(random.bytes(4 * usize::from(sources)));
    if has_extension {
        let words = random.length_among([(50, 0..=0), (40, 1..=4), (10, 5..=40)]) as u16;
        packet.extend(random.bytes(2));
        packet.extend_from_slice(&words.to_be_bytes());
        packet.extend(random.bytes(4 * usize::from(words)));
    }
    let payload = payload_length(random, packet.len());
    packet.extend(random.bytes(payload));
    packet
}

/// A media packet with nothing but the fixed header and a few bytes.
pub fn small_media(random: &mut Random, ssrc: u32, number: u16) -> Vec<u8> {
    let mut packet = vec![0x80, random.byte()];
    packet.extend_from_slice(&number.to_be_bytes());
    packet.extend(random.bytes(4));
    packet.extend_from_slice(&ssrc.to_be_bytes());
    let payload = random.length(0..=20);
    packet.extend(random.bytes(payload));
    packet
}

/// A control packet that keeps to the layout.
pub fn control(random: &mut Random, ssrc: u32) -> Vec<u8> {
    let longest = MAX_PLAIN_LENGTH / 4;
    let words = random.length_among([
        (15, 2..=2),
        (60, 3..=20),
        (15, 21..=60),
        (6, 61..=300),
        (10, longest - 1..=longest + 1),
    ]);
    control_of(random, ssrc, words)
}

/// A control packet with a few bytes behind the clear part, or none.
pub fn small_control(random: &mut Random, ssrc: u32) -> Vec<u8> {
    let words = random.length(2..=5);
    control_of(random, ssrc, words)
}

fn control_of(random: &mut Random, ssrc: u32, words: usize) -> Vec<u8> {
    let mut packet = vec![0x80 | random.byte() & 0x3f];
    packet.extend(random.bytes(3));
    packet.extend_from_slice(&ssrc.to_be_bytes());
    packet.extend(random.bytes(4 * words - packet.len()));
    packet
}

/// Mostly short payloads; now and then the whole packet is about as long as one may be.
fn payload_length(random: &mut Random, header: usize) -> usize {
    let edge = (MAX_PLAIN_LENGTH - 2).saturating_sub(header);
    random.length_among([
        (15, 0..=0),
        (45, 1..=48),
        (25, 49..=200),
        (9, 201..=1300),
        (7, edge..=edge + 4),
        (1, edge..=edge + 500),
    ])
}
