//! What a scene's receiver is given.

use super::Scene;
use crate::generate::{carried, damage, made, plain, targets};
use crate::index::{self, MAX_MEDIA_INDEX};
use crate::session::Session;
use crate::settings::{Cipher, Integrity};
use crate::trace::{Answer, Call, FINISHED};

impl Scene<'_> {
    /// Delivers a packet of the trace's own sender, or loses it. Where none is under way, the
    /// sender sends one.
    pub(super) fn deliver(&mut self, call: Call) {
        match (self.traffic.of(call).take(self.random), call) {
            (Some(_), _) if self.random.percent(10) => {}
            (Some(packet), _) => self.receive(call, packet),
            (None, Call::ReceiveMedia) => self.send_media(),
            (None, _) => self.send_control(),
        }
    }

    /// A media packet made for the receiver, at an index that no sender need have reached.
    pub(super) fn make_media(&mut self) {
        let target = self.media_target();
        // Outside the ends, the packet is the one that an index modulo 2^48 would let pass.
        let index = target.rem_euclid(MAX_MEDIA_INDEX as i64 + 1) as u64;
        let packet = plain::media(self.random, self.values.ssrc, index::number(index));
        if let Some(packet) = self.maker().made_media(&packet, index) {
            self.receive(Call::ReceiveMedia, packet);
        }
    }

    /// The index that the next packet is made at. Under RCCm2, about half of them carry the
    /// rollover count.
    fn media_target(&mut self) -> i64 {
        let receiver = &self.recorder.contexts().receiver;
        let (highest, started_count) = (receiver.media.highest, receiver.started_count);
        let is_fresh = receiver.media.accepted.is_empty();
        let random = &mut *self.random;
        match (self.session.settings.integrity, highest) {
            (_, Some(started)) if is_fresh && random.percent(10) => started as i64,
            (Integrity::Rccm2 { rate }, None) if random.percent(60) => {
                carried::first(random, started_count, rate) as i64
            }
            (Integrity::Rccm2 { rate }, Some(highest)) if random.percent(50) => {
                carried::next(random, highest, rate) as i64
            }
            (_, None) => targets::first_media(random, started_count),
            (_, Some(highest)) => targets::next_media(random, highest),
        }
    }

    /// Packets of a sender that is far ahead. Those without the rollover count are lost on the
    /// receiver, until one that carries it comes in; then they come in as well.
    pub(super) fn catch_up(&mut self) {
        let Integrity::Rccm2 { rate } = self.session.settings.integrity else { return };
        let receiver = &self.recorder.contexts().receiver;
        let highest = receiver.media.highest.unwrap_or(index::join(receiver.started_count, 0));
        let carrying = carried::far_ahead(self.random, highest, rate);
        let companions = carried::companions(self.random, carrying, rate);
        let early: Vec<_> = companions.into_iter().map(|index| self.small_media(index)).collect();
        let carrying = [self.small_media(carrying)];
        for packet in early.iter().chain(&carrying).chain(&early) {
            self.receive(Call::ReceiveMedia, packet.clone());
        }
    }

    /// A packet that carries the rollover count and comes after one that was sent later.
    pub(super) fn come_late(&mut self) {
        let Integrity::Rccm2 { rate } = self.session.settings.integrity else { return };
        let Some(highest) = self.recorder.contexts().receiver.media.highest else { return };
        let (late, later) = carried::late(self.random, highest, rate);
        for index in [later, late] {
            let packet = self.small_media(index);
            self.receive(Call::ReceiveMedia, packet);
        }
    }

    /// A small media packet under the receiver's set-up.
    fn small_media(&mut self, index: u64) -> Vec<u8> {
        made::small(self.random, &self.session, Call::ReceiveMedia, index)
    }

    /// A control packet made for the receiver, its E bit mostly as a sender would set it.
    pub(super) fn make_control(&mut self) {
        let index = match self.recorder.contexts().receiver.control.highest {
            None => targets::first_control(self.random),
            Some(highest) => targets::next_control(self.random, highest),
        };
        let habit = self.session.settings.cipher != Cipher::Null;
        let e_bit = habit ^ self.random.percent(20);
        let packet = plain::control(self.random, self.values.ssrc);
        if let Some(packet) = self.maker().made_control(&packet, index, e_bit) {
            self.receive(Call::ReceiveControl, packet);
        }
    }

    /// Who makes a packet for the receiver: its own kind, or a stranger.
    fn maker(&mut self) -> &Session {
        if self.random.percent(5) {
            &self.stranger
        } else {
            &self.session
        }
    }

    /// Delivers once more what was delivered before.
    pub(super) fn repeat(&mut self, call: Call) {
        if let Some(packet) = self.traffic.of(call).again(self.random) {
            let room = self.room(packet.len());
            self.recorder.call(call, room, &packet);
        }
    }

    /// Hands a packet to the receiver, damaged now and then. A damaged packet is often followed
    /// by the good one, which must not suffer for it.
    fn receive(&mut self, call: Call, packet: Vec<u8>) {
        let faults = self.faults();
        if faults > 0 {
            let mut harmed = packet.clone();
            for _ in 0..faults {
                self.harm(call, &mut harmed);
            }
            self.hand_over(call, &harmed);
        }
        if faults == 0 || self.random.percent(50) {
            let answer = self.hand_over(call, &packet);
            if answer.outcome == FINISHED || self.random.percent(20) {
                self.traffic.of(call).remember(self.random, packet);
            }
        }
    }

    fn harm(&mut self, call: Call, packet: &mut Vec<u8>) {
        let settings = &self.session.settings;
        let receiver = &self.recorder.contexts().receiver;
        match call {
            Call::ReceiveMedia => damage::protected_media(self.random, packet, settings, receiver),
            _ => damage::protected_control(self.random, packet, settings),
        }
    }

    fn hand_over(&mut self, call: Call, packet: &[u8]) -> Answer {
        let settings = &self.session.settings;
        let expansion = match call {
            Call::ReceiveMedia => settings.media_expansion(),
            _ => settings.control_expansion(),
        };
        let room = self.room(packet.len().saturating_sub(expansion));
        self.recorder.call(call, room, packet)
    }
}
