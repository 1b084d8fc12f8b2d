//! Sender and receiver of media under the plain settings. They refuse what reference/ refuses, in
//! the same order. SETUP and KEY can't arise under these settings.

use super::aes::RoundKeys;
use super::counter_mode::CounterMode;
use super::hmac::HmacSha1;
use super::window::Window;
use crate::implementations::{Answer, SSRC, TAG_LENGTH};
use reference::aes::Aes;
use reference::counter_mode::initial_counter;
use reference::derive::{derived_key, number};
use reference::index;
use reference::layout::RtpHeader;
use reference::refusal::Refusal;
use reference::settings::{MAX_PLAIN_LENGTH, SALT_LENGTH, TAG_KEY_LENGTH};

/// A sending context.
pub struct Sender {
    keys: Keys,
    last_index: Option<u64>,
}

impl Sender {
    /// Nothing sent yet.
    pub fn new(master_key: &[u8], master_salt: &[u8]) -> Sender {
        Sender { keys: Keys::derive(master_key, master_salt), last_index: None }
    }

    /// Protects a media packet.
    pub fn send_media<C: CounterMode>(&mut self, packet: &[u8], out: &mut [u8]) -> Answer {
        Refusal::Long.unless(packet.len() <= MAX_PLAIN_LENGTH)?;
        let header = RtpHeader::read(packet).ok_or(Refusal::Shape)?;
        Refusal::Stream.unless(header.ssrc == SSRC)?;
        let length = packet.len() + TAG_LENGTH;
        let out = out.get_mut(..length).ok_or(Refusal::Room)?;
        let index = index::next_sent(self.last_index, header.number)?;
        let (authenticated, tag) = out.split_at_mut(packet.len());
        self.keys.apply_cipher::<C>(packet, header.length, index, authenticated);
        tag.copy_from_slice(&self.keys.tag(authenticated, index));
        self.last_index = Some(index);
        Ok(length)
    }
}

/// A receiving context.
pub struct Receiver {
    keys: Keys,
    window: Window,
}

impl Receiver {
    /// Nothing accepted yet.
    pub fn new(master_key: &[u8], master_salt: &[u8]) -> Receiver {
        Receiver { keys: Keys::derive(master_key, master_salt), window: Window::default() }
    }

    /// Opens a protected media packet.
    pub fn receive_media<C: CounterMode>(&mut self, packet: &[u8], out: &mut [u8]) -> Answer {
        let length = packet.len().saturating_sub(TAG_LENGTH);
        Refusal::Long.unless(length <= MAX_PLAIN_LENGTH)?;
        let (authenticated, tag) = packet.split_last_chunk().ok_or(Refusal::Shape)?;
        let header = RtpHeader::read(authenticated).ok_or(Refusal::Shape)?;
        Refusal::Stream.unless(header.ssrc == SSRC)?;
        let out = out.get_mut(..length).ok_or(Refusal::Room)?;
        let estimate = index::estimate(self.window.highest(), 0, header.number);
        let index = index::within_ends(estimate)?;
        self.window.judge(index)?;
        Refusal::Forged.unless(equal(tag, &self.keys.tag(authenticated, index)))?;
        self.keys.apply_cipher::<C>(authenticated, header.length, index, out);
        self.window.accept(index);
        Ok(length)
    }
}

/// The session keys of media.
struct Keys {
    cipher: RoundKeys,
    salt: u128,
    mac: HmacSha1,
}

impl Keys {
    fn derive(master_key: &[u8], master_salt: &[u8]) -> Keys {
        let master = Aes::new(master_key).expect("a key of AES");
        let key = |label, length| derived_key(&master, number(master_salt), label, length);
        // The labels are RFC 3711's (4.3.1).
        Keys {
            cipher: RoundKeys::new(&key(0, master_key.len())),
            mac: HmacSha1::new(&key(1, TAG_KEY_LENGTH)),
            salt: number(&key(2, SALT_LENGTH)),
        }
    }

    /// Writes the packet to `out`, which is as long: its header as it is, its payload enciphered or
    /// deciphered.
    #[inline(always)]
    fn apply_cipher<C: CounterMode>(
        &self,
        packet: &[u8],
        header_length: usize,
        index: u64,
        out: &mut [u8],
    ) {
        let (header, payload) = packet.split_at(header_length);
        let (out_header, out_payload) = out.split_at_mut(header_length);
        out_header.copy_from_slice(header);
        let initial = initial_counter(self.salt, SSRC, index);
        C::xor_keystream(&self.cipher, initial, payload, out_payload);
    }

    fn tag(&self, authenticated: &[u8], index: u64) -> [u8; TAG_LENGTH] {
        let mac = self.mac.mac(authenticated, index::rollover_count(index).to_be_bytes());
        *mac.first_chunk().expect("a tag is shorter than a MAC")
    }
}

/// Compares without stopping at the first difference, so that time tells nothing about the tag.
fn equal(a: &[u8; TAG_LENGTH], b: &[u8; TAG_LENGTH]) -> bool {
    a.iter().zip(b).fold(0, |sum, (x, y)| sum | (x ^ y)) == 0
}
