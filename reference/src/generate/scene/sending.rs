//! What the trace's own sender does in a scene.

use super::Scene;
use crate::generate::{damage, plain, targets};
use crate::index;
use crate::settings::Settings;
use crate::trace::Call;

impl Scene<'_> {
    /// What the trace's own sender works with.
    fn sender_settings(&self) -> &Settings {
        let session = if self.is_matched { &self.session } else { &self.stranger };
        &session.settings
    }

    pub(super) fn send_media(&mut self) {
        let settings = self.sender_settings();
        let (ssrc, expansion) = (settings.ssrc, settings.media_expansion());
        let integrity = settings.integrity;
        let number = match self.recorder.contexts().sender.last_index {
            None => self.first_number,
            Some(last) => targets::next_number(self.random, last, integrity),
        };
        let mut packet = plain::media(self.random, ssrc, number);
        for _ in 0..self.faults() {
            damage::plain_media(self.random, &mut packet);
        }
        let room = self.room(packet.len() + expansion);
        let answer = self.recorder.call(Call::SendMedia, room, &packet);
        self.traffic.of(Call::SendMedia).under_way.extend(answer.packet().map(<[u8]>::to_vec));
    }

    pub(super) fn send_control(&mut self) {
        let settings = self.sender_settings();
        let (ssrc, expansion) = (settings.ssrc, settings.control_expansion());
        let mut packet = plain::control(self.random, ssrc);
        for _ in 0..self.faults() {
            damage::plain_control(self.random, &mut packet);
        }
        let room = self.room(packet.len() + expansion);
        let answer = self.recorder.call(Call::SendControl, room, &packet);
        self.traffic.of(Call::SendControl).under_way.extend(answer.packet().map(<[u8]>::to_vec));
    }

    /// Sends many packets, mostly over more numbers than the window spans, and delivers them in
    /// any order, so that some are too late.
    pub(super) fn burst(&mut self) {
        let longest_step = self.random.pick([1, 20, 60]);
        let mut packets = Vec::new();
        for _ in 0..self.random.length(65..=100) {
            let step = self.random.within(1..=longest_step) as u16;
            packets.extend(self.send_small(step));
        }
        let reach = self.random.pick([3, 70, 100]);
        for place in 0..packets.len() {
            let other = (place + self.random.length(0..=reach)).min(packets.len() - 1);
            packets.swap(place, other);
        }
        for packet in packets {
            self.recorder.call(Call::ReceiveMedia, packet.len(), &packet);
            self.traffic.of(Call::ReceiveMedia).remember(self.random, packet);
        }
    }

    /// The sender goes on while nothing reaches the receiver, which is then out of step until a
    /// tag carries the rollover count.
    pub(super) fn go_unheard(&mut self) {
        for _ in 0..self.random.length(2..=6) {
            let step = self.random.within(16_384..=32_767) as u16;
            self.send_small(step);
        }
        self.traffic.of(Call::SendMedia).under_way.clear();
    }

    /// Sends a packet without faults, so many numbers after the last.
    fn send_small(&mut self, step: u16) -> Option<Vec<u8>> {
        let last = self.recorder.contexts().sender.last_index;
        let number = last.map_or(self.first_number, |last| index::number(last).wrapping_add(step));
        let ssrc = self.sender_settings().ssrc;
        let packet = plain::small_media(self.random, ssrc, number);
        let answer = self.recorder.call(Call::SendMedia, packet.len() + 20, &packet);
        answer.packet().map(<[u8]>::to_vec)
    }
}
