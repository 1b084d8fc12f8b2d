//! What an evening's receiver is given as media that the sender didn't send so.

use super::Maker;
use crate::evening::Role;
use crate::generate::{damage, made, window};
use crate::random::Random;
use crate::session::Session;
use crate::settings::{SetUp, MASTER_KEY_LENGTH, SALT_LENGTH};
use crate::trace::Call;

#[derive(Clone, Copy)]
enum Kind {
    Damaged,
    Cut,
    Elsewhere,
    Control,
    Plain,
    Bytes,
}

/// Others on links that differ in one value, so that none of their packets is let in: the key, the
/// salt, the SSRC, or the MKI. The tag doesn't tell one cipher from the other.
pub fn strangers(random: &mut Random, values: &SetUp) -> Vec<Session> {
    let mut mki = values.mki.clone();
    match mki.first_mut() {
        None => mki.push(random.byte()),
        Some(first) => *first ^= 1 << random.within(0..=7),
    }
    let ssrc = values.ssrc.wrapping_add(random.pick([1, 0x100_0000]));
    let others = [
        SetUp { master_key: random.bytes(MASTER_KEY_LENGTH), ..values.clone() },
        SetUp { master_salt: random.bytes(SALT_LENGTH), ..values.clone() },
        SetUp { ssrc, ..values.clone() },
        SetUp { mki, ..values.clone() },
    ];
    others.iter().filter_map(Session::set_up).collect()
}

impl Maker {
    /// A strange string.
    pub(super) fn receive_strange(&mut self) {
        let kind = self.random.weighted([
            (40, Kind::Damaged),
            (8, Kind::Cut),
            (30, Kind::Elsewhere),
            (6, Kind::Control),
            (6, Kind::Plain),
            (10, Kind::Bytes),
        ]);
        let packet = match kind {
            Kind::Damaged => self.damaged(),
            Kind::Cut => self.cut(),
            Kind::Elsewhere => self.made_elsewhere(),
            Kind::Control => self.control.last().cloned().unwrap_or_default(),
            Kind::Plain => self.plain_media(self.first_number),
            Kind::Bytes => self.bytes(),
        };
        let enough = self.room(packet.len().saturating_sub(self.settings.media_expansion()));
        let any = self.random.length(0..=enough);
        let room = self.random.weighted([(9, enough), (1, any)]);
        self.call(Role::Strange, Call::ReceiveMedia, room, &packet);
    }

    /// A packet that was sent: the last, one under way, or one about the window.
    pub(super) fn nearby_packet(&mut self) -> Vec<u8> {
        let index = self.nearby_index();
        let sent = self.sent.range(index..).next().or_else(|| self.sent.last_key_value());
        sent.map_or_else(Vec::new, |(_, sent)| sent.packet.clone())
    }

    fn nearby_index(&mut self) -> u64 {
        let last = self.last_sent().unwrap_or(0);
        let next = self.under_way.first().copied().unwrap_or(last);
        let highest = self.highest().unwrap_or(last);
        let late = highest.saturating_sub(window::lateness(&mut self.random));
        self.random.weighted([(3, last), (3, next), (1, highest), (3, late)])
    }

    fn damaged(&mut self) -> Vec<u8> {
        let packet = self.nearby_packet();
        let mut harmed = packet.clone();
        for _ in 0..self.random.weighted([(4, 1), (1, 2)]) {
            let receiver = &self.recorder.contexts().receiver;
            damage::protected_media(&mut self.random, &mut harmed, &self.settings, receiver);
        }
        // Some damage leaves a packet as it was.
        if harmed == packet {
            harmed.iter_mut().rev().take(1).for_each(|byte| *byte ^= 1);
        }
        harmed
    }

    fn cut(&mut self) -> Vec<u8> {
        let mut packet = self.nearby_packet();
        packet.truncate(self.random.length(0..=packet.len().saturating_sub(1)));
        packet
    }

    /// A good packet on another link, mostly at an index that would be next, or ahead by anything.
    fn made_elsewhere(&mut self) -> Vec<u8> {
        let next = self.nearby_index() + 1;
        let ahead = next + self.random.within(0..=32_000);
        let index = self.random.weighted([(2, next), (1, ahead)]);
        let place = self.random.length(0..=self.strangers.len().saturating_sub(1));
        let Some(session) = self.strangers.get(place) else { return Vec::new() };
        made::small(&mut self.random, session, Call::ReceiveMedia, index)
    }

    /// Bytes that nobody made, at times with the look of a packet of the stream.
    fn bytes(&mut self) -> Vec<u8> {
        let length = self.random.length(0..=60);
        let mut packet = self.random.bytes(length);
        if self.random.percent(60) {
            packet.iter_mut().take(1).for_each(|byte| *byte = 0x80);
            let ssrc = self.values.ssrc.to_be_bytes();
            packet.iter_mut().skip(8).zip(ssrc).for_each(|(byte, field)| *byte = field);
        }
        packet
    }
}
