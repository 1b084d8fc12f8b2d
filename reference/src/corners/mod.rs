//! The corners of the rules that a run must have met, beside the table of refusals: the limits
//! of step, distance, window, index, length and room, what RFC 4771 adds, and jumps of H.

mod event;
mod rfc3711;
mod rfc4771;
mod window;

use crate::trace::{Answer, Contexts, Record, Request};
use event::{Corner, Event};
use std::fmt;

/// Every corner, in the order in which they are told.
fn corners() -> impl Iterator<Item = &'static Corner> {
    rfc3711::CORNERS.iter().chain(rfc4771::CORNERS).chain(window::CORNERS)
}

/// How often each corner was met.
#[derive(Clone, Debug, PartialEq, Eq)]
pub struct Corners {
    counts: Vec<u64>,
}

impl Default for Corners {
    fn default() -> Self {
        Corners { counts: vec![0; corners().count()] }
    }
}

impl Corners {
    /// Counts the corners that a record and its answer are in.
    pub fn count(&mut self, before: &Contexts, record: &Record, answer: &Answer) {
        let Some(Request::Packet { call, room, packet }) = Request::read(record) else { return };
        let event = Event { call, room, packet, answer, before };
        for (count, (_, holds)) in self.counts.iter_mut().zip(corners()) {
            *count += u64::from(holds(&event));
        }
    }

    /// The corners that were not met.
    pub fn gaps(&self) -> Vec<String> {
        let named = self.counts.iter().zip(corners());
        named.filter(|(count, _)| **count == 0).map(|(_, corner)| corner.0.to_string()).collect()
    }
}

impl fmt::Display for Corners {
    fn fmt(&self, f: &mut fmt::Formatter<'_>) -> fmt::Result {
        let lines: Vec<String> = self
            .counts
            .iter()
            .zip(corners())
            .map(|(count, (name, _))| format!("{name:70}{count:>9}"))
            .collect();
        f.write_str(&lines.join("\n"))
    }
}
