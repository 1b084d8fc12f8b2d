//! Scenes of an evening: how the receiver joins, and what breaks the steady stream. Each leaves the
//! receiver within reach of the sender.

use super::sending::LONGEST_STEP;
use super::Maker;
use crate::evening::Role;
use crate::generate::{carried, window};
use crate::index;
use crate::replay::WINDOW_LENGTH;
use crate::settings::{Integrity, Start};
use crate::trace::{receiver_body, Call};

const NUMBERS: u64 = 1 << 16;

impl Maker {
    /// The receiver is set up while the sender goes on. It starts with the count of the packet
    /// that comes first; where that one carries its own, at times with another.
    pub(super) fn join(&mut self) {
        self.send_before();
        let carrying = self.carrying_after(3).filter(|_| self.random.percent(60));
        let first = match carrying {
            Some(first) => {
                self.send_up_to(first - 1);
                self.send_up_to(first);
                first
            }
            None => self.recently_sent(),
        };
        let count = index::rollover_count(first);
        self.started_count = if carrying.is_some() { self.wrong_count(count) } else { count };
        let start = Start { rollover_count: self.started_count, last_number: None };
        let body = receiver_body(&self.values, start, self.random.bits() as u16);
        self.record(Role::Other, Call::SetUpReceiver.op(), &body);
        (0..self.random.within(0..=4)).for_each(|_| self.receive_strange());
        if carrying.is_some() {
            // Most often in vain: only the next one has its count with it.
            self.hand_over(first - 1);
        }
        self.hand_over(first);
    }

    /// Packets that nobody hears: one, or many, or over some rollovers.
    fn send_before(&mut self) {
        for _ in 0..self.random.length_among([(4, 1..=1), (3, 2..=40), (3, 200..=1500)]) {
            let step = self.step();
            self.send(step);
        }
        for _ in 0..self.random.length_among([(4, 0..=0), (6, 1..=8)]) {
            let step = self.random.within(8_000..=LONGEST_STEP);
            self.send(step);
        }
    }

    /// One of the last packets sent, a little behind the last at most.
    fn recently_sent(&mut self) -> u64 {
        let last = self.last_sent().unwrap_or(0);
        let from = last.saturating_sub(self.random.pick([0, 3, 700]));
        self.sent.range(from..).next().map_or(last, |(index, _)| *index)
    }

    /// Another count.
    fn wrong_count(&mut self, count: u32) -> u32 {
        let any = self.random.bits() as u32;
        let wrong = self.random.pick([count.wrapping_sub(1), 0, u32::MAX, any]);
        if wrong == count {
            count.wrapping_add(1)
        } else {
            wrong
        }
    }

    /// The first index more than so far after the last one sent whose packet carries its count.
    fn carrying_after(&self, distance: u64) -> Option<u64> {
        let Integrity::Rccm2 { rate } = self.settings.integrity else { return None };
        Some(carried::after(self.last_sent()? + distance, rate))
    }

    /// Both sides come to an index, in steps that the receiver can follow.
    fn lead_to(&mut self, index: u64) {
        self.catch_up();
        while let Some(step) = self.step_towards(index) {
            let next = self.send(step);
            self.hand_over(next);
        }
    }

    /// The sender jumps: about the window's length or as far as it may. Then what has just come to
    /// the window's end is asked about.
    pub(super) fn jump(&mut self) {
        self.catch_up();
        let any = window::jump(&mut self.random);
        let step = self.random.pick([WINDOW_LENGTH - 1, WINDOW_LENGTH, LONGEST_STEP, any]);
        let index = self.send(step);
        self.hand_over(index);
        for behind in [WINDOW_LENGTH - 1, WINDOW_LENGTH] {
            self.hand_over(index.saturating_sub(behind));
        }
    }

    /// A packet is overtaken by one that is as far ahead as the window is long, or nearly. It may
    /// be one that carries its count.
    pub(super) fn hold_back(&mut self) {
        self.catch_up();
        let carrying = self.carrying_after(1).filter(|_| self.random.percent(50));
        if let Some(index) = carrying {
            self.lead_to(index - 1);
        }
        let late = self.send(1);
        let jump = self.random.pick([WINDOW_LENGTH - 2, WINDOW_LENGTH - 1, WINDOW_LENGTH]);
        let early = self.send(jump);
        self.hand_over(early);
        self.receive_strange();
        self.hand_over(late);
        self.hand_over(late);
    }

    /// A packet as far ahead as an estimate reaches, after one that is farther and comes in vain
    /// until then.
    pub(super) fn reach_ahead(&mut self) {
        self.catch_up();
        let farthest = self.send(LONGEST_STEP);
        let any = self.random.within(2..=900);
        let more = self.random.weighted([(3, 2), (1, any)]);
        let beyond = self.send(more);
        [beyond, farthest, beyond].into_iter().for_each(|index| self.hand_over(index));
    }

    /// Both sides come to a rollover, and the stream goes steadily over it.
    pub(super) fn roll_over(&mut self) {
        let last = self.last_sent().unwrap_or(0);
        let rollover = (last / NUMBERS + 1) * NUMBERS;
        let before = self.random.length_among([(3, 1..=20), (1, 20..=200)]) as u64;
        self.lead_to(rollover - before);
        (0..2 * before).for_each(|_| self.send_on());
    }

    /// The sender goes far ahead and nothing arrives, until a packet does that carries its count.
    /// Those about it come in vain before it, and come in after it.
    pub(super) fn go_unheard(&mut self) {
        self.catch_up();
        for _ in 0..self.random.length(1..=6) {
            let step = self.random.within(NUMBERS / 4..=LONGEST_STEP);
            self.send(step);
        }
        let Some(carrying) = self.carrying_after(5) else { return };
        let before = carrying - self.random.within(1..=4);
        self.send_up_to(before);
        self.send_up_to(carrying);
        let after = self.send(1);
        let order = [before, after, carrying, after, before];
        order.into_iter().for_each(|index| self.hand_over(index));
    }
}
