//! Damage to packets, field by field.

use crate::context::Receiver;
use crate::index;
use crate::layout::{ProtectedMedia, INDEX_WORD_LENGTH, RTCP_CLEAR_LENGTH};
use crate::random::Random;
use crate::settings::{Integrity, Settings};
use crate::settings::{CARRIED_COUNT_LENGTH, CONTROL_TAG_LENGTH, MAX_PLAIN_LENGTH};
use std::ops::Range;

/// Where an RTP packet has its SSRC.
const RTP_SSRC: Range<usize> = 8..12;
/// Where an RTCP packet has its SSRC.
const RTCP_SSRC: Range<usize> = 4..8;

#[derive(Clone, Copy)]
enum Kind {
    Header,
    Version,
    Sources,
    ExtensionBit,
    ExtensionCount,
    Ssrc,
    Text,
    IndexWord,
    Mki,
    Tag,
    Count,
    EndOfTag,
    SwapMkiAndTag,
    Truncate,
    CutByOne,
    Append,
    TooLong,
}

/// Harms a plain media packet.
pub fn plain_media(random: &mut Random, packet: &mut Vec<u8>) {
    let kind = random.weighted([
        (2, Kind::Version),
        (2, Kind::Sources),
        (1, Kind::ExtensionBit),
        (3, Kind::ExtensionCount),
        (4, Kind::Ssrc),
        (2, Kind::Truncate),
        (1, Kind::CutByOne),
        (3, Kind::TooLong),
    ]);
    let end = packet.len();
    match kind {
        Kind::ExtensionCount => stretch_extension(random, packet, end),
        _ => harm_common(random, packet, kind, RTP_SSRC),
    }
}

/// Harms a plain control packet.
pub fn plain_control(random: &mut Random, packet: &mut Vec<u8>) {
    let kind = random.weighted([
        (3, Kind::Version),
        (4, Kind::Ssrc),
        (2, Kind::Truncate),
        (1, Kind::CutByOne),
        (2, Kind::Append),
        (3, Kind::TooLong),
    ]);
    harm_common(random, packet, kind, RTCP_SSRC);
}

/// What happens to a protected media packet.
fn media_kind(random: &mut Random, integrity: Integrity, carries_count: bool) -> Kind {
    random.weighted([
        (3, Kind::Header),
        (1, Kind::Version),
        (1, Kind::Sources),
        (1, Kind::ExtensionBit),
        (3, Kind::ExtensionCount),
        (2, Kind::Ssrc),
        (3, Kind::Text),
        (3, Kind::Mki),
        (4, Kind::Tag),
        (10 * u64::from(carries_count), Kind::Count),
        (8 * u64::from(integrity != Integrity::HmacSha1), Kind::EndOfTag),
        (1, Kind::SwapMkiAndTag),
        (2, Kind::Truncate),
        (1, Kind::CutByOne),
        (1, Kind::Append),
        (2, Kind::TooLong),
    ])
}

/// Harms a protected media packet. A rollover count in its tag is changed with a view to what
/// the receiver holds.
pub fn protected_media(
    random: &mut Random,
    packet: &mut Vec<u8>,
    settings: &Settings,
    receiver: &Receiver,
) {
    let parts = ProtectedMedia::read(packet, settings);
    let carries_count = parts.is_some_and(|parts| parts.carried_count.is_some());
    let kind = media_kind(random, settings.integrity, carries_count);
    let text = parts.map_or(0, |parts| parts.header.length);
    let end = packet.len();
    let tag = end.saturating_sub(settings.media_tag_length);
    let mki = tag.saturating_sub(settings.mki.len());
    match kind {
        Kind::Header => flip_bit(random, packet, 0..text),
        Kind::Text => flip_bit(random, packet, text..mki),
        Kind::Mki => flip_bit(random, packet, mki..tag),
        Kind::Tag => flip_bit(random, packet, tag..end),
        Kind::Count => change_count(random, &mut packet[tag..], receiver),
        Kind::EndOfTag => flip_bit(random, packet, end.saturating_sub(CARRIED_COUNT_LENGTH)..end),
        Kind::SwapMkiAndTag => packet[mki..].rotate_left(tag - mki),
        Kind::ExtensionCount => stretch_extension(random, packet, mki),
        _ => harm_common(random, packet, kind, RTP_SSRC),
    }
}

/// Changes the rollover count at the front of a tag: by one bit, to one near it or near the
/// receiver's, or to an end.
fn change_count(random: &mut Random, tag: &mut [u8], receiver: &Receiver) {
    let Some(field) = tag.first_chunk_mut::<CARRIED_COUNT_LENGTH>() else { return };
    let count = u32::from_be_bytes(*field);
    let highest = receiver.media.highest.map_or(receiver.started_count, index::rollover_count);
    let by_one_bit = count ^ 1 << random.within(0..=31);
    let changed = random.weighted([
        (4, by_one_bit),
        (3, highest),
        (1, highest.wrapping_add(1)),
        (1, highest.wrapping_sub(1)),
        (1, count.wrapping_add(1)),
        (1, count.wrapping_sub(1)),
        (1, receiver.started_count),
        (1, 0),
        (1, u32::MAX),
    ]);
    let changed = if changed == count { by_one_bit } else { changed };
    *field = changed.to_be_bytes();
}

/// Harms a protected control packet.
pub fn protected_control(random: &mut Random, packet: &mut Vec<u8>, settings: &Settings) {
    let kind = random.weighted([
        (2, Kind::Header),
        (1, Kind::Version),
        (2, Kind::Ssrc),
        (3, Kind::Text),
        (4, Kind::IndexWord),
        (3, Kind::Mki),
        (4, Kind::Tag),
        (1, Kind::SwapMkiAndTag),
        (2, Kind::Truncate),
        (1, Kind::CutByOne),
        (1, Kind::Append),
        (2, Kind::TooLong),
    ]);
    let end = packet.len();
    let tag = end.saturating_sub(CONTROL_TAG_LENGTH);
    let mki = tag.saturating_sub(settings.mki.len());
    let word = mki.saturating_sub(INDEX_WORD_LENGTH);
    match kind {
        Kind::Header => flip_bit(random, packet, 0..RTCP_CLEAR_LENGTH),
        Kind::Text => flip_bit(random, packet, RTCP_CLEAR_LENGTH..word),
        Kind::IndexWord => flip_bit(random, packet, word..mki),
        Kind::Mki => flip_bit(random, packet, mki..tag),
        Kind::Tag => flip_bit(random, packet, tag..end),
        Kind::SwapMkiAndTag => packet[mki..].rotate_left(tag - mki),
        _ => harm_common(random, packet, kind, RTCP_SSRC),
    }
}

/// What can happen to any packet.
fn harm_common(random: &mut Random, packet: &mut Vec<u8>, kind: Kind, ssrc: Range<usize>) {
    match kind {
        Kind::Version => flip_mask(packet, random.pick([0x40, 0x80, 0xc0])),
        Kind::Sources => flip_mask(packet, random.within(1..=15) as u8),
        Kind::ExtensionBit => flip_mask(packet, 0x10),
        Kind::Ssrc => flip_bit(random, packet, ssrc),
        Kind::Truncate => packet.truncate(random.length(0..=packet.len())),
        Kind::CutByOne => packet.truncate(packet.len().saturating_sub(1)),
        Kind::Append => {
            let more = random.length(1..=20);
            packet.extend(random.bytes(more));
        }
        Kind::TooLong => {
            let over = random.pick([1, 4, 15, 24, 100, 1000, 4000]);
            let more = (MAX_PLAIN_LENGTH + over).saturating_sub(packet.len());
            packet.extend(random.bytes(more));
        }
        _ => {
            let end = packet.len();
            flip_bit(random, packet, 0..end);
        }
    }
}

fn flip_mask(packet: &mut [u8], mask: u8) {
    if let Some(first) = packet.first_mut() {
        *first ^= mask;
    }
}

/// Flips one bit of the range, as far as the packet has it.
fn flip_bit(random: &mut Random, packet: &mut [u8], range: Range<usize>) {
    let end = range.end.min(packet.len());
    if range.start < end {
        let at = random.length(range.start..=end - 1);
        packet[at] ^= 1 << random.within(0..=7);
    }
}

/// Gives the packet an extension that ends just at `end`, or up to three words behind it; or one
/// that only seems to, if its length is taken modulo 2^16.
fn stretch_extension(random: &mut Random, packet: &mut [u8], end: usize) {
    let Some(first) = packet.first_mut() else { return };
    *first |= 0x10;
    let start = 12 + 4 * usize::from(*first & 0x0f);
    let wrapped = random.weighted([(80, 0), (10, 0x4000), (10, 0xc000)]);
    let words = end.saturating_sub(start + 4) / 4 + random.length(0..=3) + wrapped;
    if let Some(count) = packet.get_mut(start + 2..start + 4) {
        count.copy_from_slice(&(words as u16).to_be_bytes());
    }
}
