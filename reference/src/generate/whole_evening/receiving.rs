//! What an evening's receiver is given of the sender's packets.

use super::Maker;
use crate::evening::{keeps_up, Role};
use crate::generate::{damage, window};
use crate::index;
use crate::replay::WINDOW_LENGTH;
use crate::trace::Call;

/// Half the numbers. RFC 3711 leaves open which way an estimate goes from there, so a packet just as
/// far ahead is not handed over.
const HALF: u64 = 1 << 15;

impl Maker {
    /// The highest index delivered.
    pub(super) fn highest(&self) -> Option<u64> {
        self.delivered.last().copied()
    }

    pub(super) fn carries_count(&self, index: u64) -> bool {
        self.settings.integrity.carries_count(index::number(index))
    }

    /// Hands over the packet that was sent at an index: a delivery if it keeps up, else strange.
    pub(super) fn hand_over(&mut self, index: u64) {
        let Some(sent) = self.sent.get(&index) else { return };
        let (place, packet) = (sent.place, sent.packet.clone());
        let (carries_count, highest) = (self.carries_count(index), self.highest());
        if !carries_count && highest.is_some_and(|highest| index == highest + HALF) {
            return;
        }
        let room = self.room(packet.len().saturating_sub(self.settings.media_expansion()));
        if keeps_up(carries_count, self.started_count, highest, index) {
            self.call(Role::Delivery { sent: place }, Call::ReceiveMedia, room, &packet);
            self.delivered.insert(index);
        } else {
            self.call(Role::Strange, Call::ReceiveMedia, room, &packet);
        }
    }

    /// A packet under way arrives, the first one or a later one before it, at times twice; or it
    /// is lost.
    pub(super) fn arrive(&mut self) {
        let Some(last) = self.under_way.len().checked_sub(1) else { return };
        let place = if self.random.percent(50) { 0 } else { self.random.length(0..=last) };
        let index = self.under_way.remove(place);
        let times = self.random.weighted([(6, 0), (91, 1), (3, 2)]);
        (0..times).for_each(|_| self.hand_over(index));
    }

    /// Everything under way arrives or is lost, but the last packet sent surely arrives.
    pub(super) fn catch_up(&mut self) {
        while !self.under_way.is_empty() {
            self.arrive();
        }
        if let Some(last) = self.last_sent().filter(|last| !self.delivered.contains(last)) {
            self.hand_over(last);
        }
    }

    /// A packet that was delivered, once more: the highest, or any in the window.
    pub(super) fn repeat(&mut self) {
        let Some(highest) = self.highest() else { return };
        let any = highest.saturating_sub(self.random.within(0..=WINDOW_LENGTH - 1));
        let from = self.random.weighted([(1, highest), (4, any)]);
        if let Some(index) = self.delivered.range(from..).next() {
            self.hand_over(*index);
        }
    }

    /// A packet so far behind the highest, sent there or next to there, or the next that was lost.
    pub(super) fn come_late(&mut self) {
        let Some(highest) = self.highest() else { return };
        let from = highest.saturating_sub(window::lateness(&mut self.random));
        let wants_lost = self.random.percent(60);
        let mut late = self.sent.range(from..=highest).map(|(index, _)| *index);
        if let Some(index) = late.find(|index| !(wants_lost && self.delivered.contains(index))) {
            self.hand_over(index);
        }
    }

    /// A control packet of the sender: the last one, one of those before, or a damaged one; or a
    /// media packet.
    pub(super) fn receive_control(&mut self) {
        let Some(last) = self.control.len().checked_sub(1) else { return };
        let any = self.random.length(0..=last);
        let place = self.random.weighted([(3, last), (2, any)]);
        let mut packet = self.control[place].clone();
        match self.random.within(0..=9) {
            0 | 1 => damage::protected_control(&mut self.random, &mut packet, &self.settings),
            2 => packet = self.nearby_packet(),
            _ => {}
        }
        let room = self.room(packet.len());
        self.call(Role::Other, Call::ReceiveControl, room, &packet);
    }
}
