//! What an evening's sender does.

use super::{Maker, Sent};
use crate::evening::Role;
use crate::generate::{plain, window};
use crate::index;
use crate::settings::MAX_PLAIN_LENGTH;
use crate::trace::Call;

/// The farthest that a sender may step.
pub const LONGEST_STEP: u64 = (1 << 15) - 1;

impl Maker {
    pub(super) fn last_sent(&self) -> Option<u64> {
        self.sent.last_key_value().map(|(index, _)| *index)
    }

    /// Sends a packet so far after the last one; the first has its number for its index.
    pub(super) fn send(&mut self, step: u64) -> u64 {
        let index = self.last_sent().map_or(u64::from(self.first_number), |last| last + step);
        let plain = self.plain_media(index::number(index));
        let place = self.roles.len();
        let room = self.room(plain.len() + self.settings.media_expansion());
        let answer = self.call(Role::Send { index }, Call::SendMedia, room, &plain);
        let packet = answer.packet().unwrap_or_default().to_vec();
        self.sent.insert(index, Sent { place, packet });
        index
    }

    /// The longest step that leads towards an index; None where it is reached.
    pub(super) fn step_towards(&self, index: u64) -> Option<u64> {
        let left = index.checked_sub(self.last_sent()?)?;
        (left > 0).then_some(left.min(LONGEST_STEP))
    }

    /// Sends up to an index, and none of the packets arrives.
    pub(super) fn send_up_to(&mut self, index: u64) {
        while let Some(step) = self.step_towards(index) {
            self.send(step);
        }
    }

    /// The next packet of a steady stream. Others arrive if there are many under way.
    pub(super) fn send_on(&mut self) {
        let step = self.step();
        let index = self.send(step);
        self.under_way.push(index);
        while self.under_way.len() > self.backlog {
            self.arrive();
        }
    }

    /// A step of a steady stream, mostly 1.
    pub(super) fn step(&mut self) -> u64 {
        let few = self.random.within(2..=5);
        let some = self.random.within(6..=200);
        let jump = window::jump(&mut self.random);
        self.random.weighted([(940, 1), (50, few), (8, some), (2, jump)])
    }

    /// A send that is refused and takes no index: ORDER or ROOM.
    pub(super) fn send_in_vain(&mut self) {
        let Some(last) = self.last_sent() else { return };
        let too_far = self.random.within(32_768..=65_535);
        let (step, is_short) = self.random.pick([(0, false), (too_far, false), (1, true)]);
        let plain = self.plain_media(index::number(last + step));
        let room = plain.len() + self.settings.media_expansion() - usize::from(is_short);
        self.call(Role::Other, Call::SendMedia, room, &plain);
    }

    pub(super) fn send_control(&mut self) {
        let plain = plain::small_control(&mut self.random, self.values.ssrc);
        let room = self.room(plain.len() + self.settings.control_expansion());
        let answer = self.call(Role::Other, Call::SendControl, room, &plain);
        self.control.extend(answer.packet().map(<[u8]>::to_vec));
    }

    /// A plain packet, mostly small and never too long.
    pub(super) fn plain_media(&mut self, number: u16) -> Vec<u8> {
        let ssrc = self.values.ssrc;
        if self.random.percent(85) {
            return plain::small_media(&mut self.random, ssrc, number);
        }
        let mut packet = plain::media(&mut self.random, ssrc, number);
        packet.truncate(MAX_PLAIN_LENGTH);
        packet
    }
}
