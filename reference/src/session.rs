//! A session: the settings and keys that a packet is under, and the packet that they give at an
//! index (RFC 3711, 3.1, 3.4, 4.1 and 4.2; RFC 4771, 2). Nothing here knows what was sent or
//! received before.

use crate::counter_mode;
use crate::derive::{self, SessionKeys};
use crate::index;
use crate::layout::{self, ProtectedControl, ProtectedMedia, RtpHeader};
use crate::settings::{Cipher, SetUp, Settings, MASTER_KEY_LENGTH, SALT_LENGTH};
use crate::sha1::DIGEST_LENGTH;

/// Settings with the session keys of media and of control.
#[derive(Clone, Debug, PartialEq, Eq)]
pub struct Session {
    /// The settings.
    pub settings: Settings,
    /// Keys of media packets.
    pub media: SessionKeys,
    /// Keys of control packets.
    pub control: SessionKeys,
}

impl Session {
    /// The session of a set-up; None if any value is off the list.
    pub fn set_up(values: &SetUp) -> Option<Session> {
        let settings = Settings::read(values)?;
        let values_are_admitted = settings.are_admitted()
            && values.master_key.len() == MASTER_KEY_LENGTH
            && values.master_salt.len() == SALT_LENGTH;
        if !values_are_admitted {
            return None;
        }
        let keys = |labels| SessionKeys::derive(&values.master_key, &values.master_salt, labels);
        Some(Session { settings, media: keys(derive::MEDIA)?, control: keys(derive::CONTROL)? })
    }

    /// The protected form of a plain media packet at an index; None if its header can't be read,
    /// or if the settings are off the list.
    pub fn made_media(&self, packet: &[u8], index: u64) -> Option<Vec<u8>> {
        let header = RtpHeader::read(packet)?;
        let mut out = vec![0; packet.len() + self.settings.media_expansion()];
        self.settings.are_admitted().then(|| {
            self.protect_media(packet, &header, index, &mut out);
            out
        })
    }

    /// The protected form of a plain control packet at an index, with the E bit as given; None
    /// if it has not RTCP's layout, or if the settings are off the list.
    pub fn made_control(&self, packet: &[u8], index: u64, e_bit: bool) -> Option<Vec<u8>> {
        layout::rtcp_ssrc(packet)?;
        let mut out = vec![0; packet.len() + self.settings.control_expansion()];
        self.settings.are_admitted().then(|| {
            self.protect_control(packet, index, e_bit, &mut out);
            out
        })
    }

    /// Writes the protected media packet over the whole of `out`, which has just its length.
    pub(crate) fn protect_media(
        &self,
        packet: &[u8],
        header: &RtpHeader,
        index: u64,
        out: &mut [u8],
    ) {
        let (authenticated, trailer) = out.split_at_mut(packet.len());
        authenticated.copy_from_slice(packet);
        self.apply_cipher(&self.media, index, &mut authenticated[header.length..]);
        let count = index::rollover_count(index);
        let mac = self.media_mac(authenticated, count);
        let is_carried = self.settings.integrity.carries_count(header.number);
        let count = count.to_be_bytes();
        self.write_trailer(if is_carried { &count } else { &[] }, &mac, trailer);
    }

    /// Writes the protected control packet over the whole of `out`, which has just its length.
    pub(crate) fn protect_control(&self, packet: &[u8], index: u64, e_bit: bool, out: &mut [u8]) {
        let (authenticated, trailer) = out.split_at_mut(packet.len() + layout::INDEX_WORD_LENGTH);
        let (rtcp, word) = authenticated.split_at_mut(packet.len());
        rtcp.copy_from_slice(packet);
        if e_bit {
            self.apply_cipher(&self.control, index, &mut rtcp[layout::RTCP_CLEAR_LENGTH..]);
        }
        word.copy_from_slice(&layout::index_word(e_bit, index));
        let mac = self.control.tag.mac(&[authenticated]);
        self.write_trailer(&[], &mac, trailer);
    }

    /// The whole MAC of a media packet. It also covers the rollover count of the packet's own
    /// index.
    pub fn media_mac(&self, authenticated: &[u8], rollover_count: u32) -> [u8; DIGEST_LENGTH] {
        self.media.tag.mac(&[authenticated, &rollover_count.to_be_bytes()])
    }

    /// Whether the packet's MAC is right at the index.
    pub(crate) fn verify_media(&self, packet: &ProtectedMedia, index: u64) -> bool {
        let mac = self.media_mac(packet.authenticated, index::rollover_count(index));
        equal(packet.mac, &mac[..packet.mac.len()])
    }

    /// Whether the packet's tag is right.
    pub(crate) fn verify_control(&self, packet: &ProtectedControl) -> bool {
        let mac = self.control.tag.mac(&[packet.authenticated]);
        equal(packet.tag, &mac[..packet.tag.len()])
    }

    /// Writes the plain media packet over the whole of `out`, which has just its length.
    pub(crate) fn open_media(&self, packet: &ProtectedMedia, index: u64, out: &mut [u8]) {
        out.copy_from_slice(packet.authenticated);
        self.apply_cipher(&self.media, index, &mut out[packet.header.length..]);
    }

    /// Writes the plain control packet over the whole of `out`, which has just its length. The
    /// packet's E bit decides, not the cipher's habit.
    pub(crate) fn open_control(&self, packet: &ProtectedControl, out: &mut [u8]) {
        out.copy_from_slice(packet.rtcp);
        if packet.is_enciphered {
            let text = &mut out[layout::RTCP_CLEAR_LENGTH..];
            self.apply_cipher(&self.control, packet.index, text);
        }
    }

    /// Whether a sender sets the E bit.
    pub(crate) fn sender_sets_e_bit(&self) -> bool {
        self.settings.cipher == Cipher::AesCounterMode
    }

    /// Enciphers plain text, deciphers enciphered text.
    fn apply_cipher(&self, keys: &SessionKeys, index: u64, text: &mut [u8]) {
        match self.settings.cipher {
            Cipher::Null => {}
            Cipher::AesCounterMode => {
                let initial = counter_mode::initial_counter(keys.salt, self.settings.ssrc, index);
                counter_mode::xor_keystream(&keys.cipher, initial, text);
            }
        }
    }

    /// MKI, what the tag carries, then the MAC's first bytes as far as the trailer goes. The MKI
    /// is never covered.
    fn write_trailer(&self, carried: &[u8], mac: &[u8], trailer: &mut [u8]) {
        let (mki, tag) = trailer.split_at_mut(self.settings.mki.len());
        let (front, rest) = tag.split_at_mut(carried.len());
        mki.copy_from_slice(&self.settings.mki);
        front.copy_from_slice(carried);
        rest.copy_from_slice(&mac[..rest.len()]);
    }
}

/// Compares without stopping at the first difference, so that time tells nothing about the tag.
fn equal(a: &[u8], b: &[u8]) -> bool {
    a.len() == b.len() && a.iter().zip(b).fold(0, |sum, (x, y)| sum | (x ^ y)) == 0
}
