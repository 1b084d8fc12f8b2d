//! Jumps of a scene's receiver over its replay window.

use super::Scene;
use crate::generate::{made, window};
use crate::index::{MAX_CONTROL_INDEX, MAX_MEDIA_INDEX};
use crate::trace::Call;

impl Scene<'_> {
    /// Lets H rise by a jump, which moves some marks to the limits, and asks what the window holds
    /// then.
    pub(super) fn jump(&mut self, call: Call) {
        let Some(highest) = self.recorder.contexts().replay_list(call).highest else { return };
        let end = if call == Call::ReceiveMedia { MAX_MEDIA_INDEX } else { MAX_CONTROL_INDEX };
        let risen = end.min(highest + window::jump(self.random));
        let marks: Vec<u64> = (0..self.random.within(0..=3))
            .filter_map(|_| risen.checked_sub(window::lateness(self.random)))
            .filter(|index| *index <= highest)
            .collect();
        marks.iter().chain([&risen]).for_each(|index| self.receive_small(call, *index));
        for mark in marks {
            // Where a wrong shift might leave the mark.
            let word_behind = mark.saturating_sub(window::WORD_LENGTH);
            let unmoved = mark + (risen - highest);
            let wrong = self.random.pick([word_behind, unmoved]);
            [mark, wrong].iter().for_each(|index| self.probe(call, *index));
        }
        for _ in 0..self.random.within(1..=3) {
            let list = self.recorder.contexts().replay_list(call);
            let index = window::probed(self.random, list).unwrap_or(highest);
            self.probe(call, index);
        }
    }

    fn probe(&mut self, call: Call, index: u64) {
        made::probe(self.random, self.recorder, &self.session, call, index);
    }

    /// Hands over a small good packet.
    fn receive_small(&mut self, call: Call, index: u64) {
        let packet = made::small(self.random, &self.session, call, index);
        self.recorder.call(call, packet.len(), &packet);
        self.traffic.of(call).remember(self.random, packet);
    }
}
