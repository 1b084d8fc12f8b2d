//! Replay protection (RFC 3711, 3.3.2) as the plain set of accepted indices with its H.

use crate::refusal::Refusal;
use std::collections::BTreeSet;

/// Indices that the window spans, H among them.
pub const WINDOW_LENGTH: u64 = 1024;

/// The replay list of one kind of packet.
#[derive(Clone, Debug, Default, PartialEq, Eq)]
pub struct ReplayList {
    /// H: the highest index accepted or started with.
    pub highest: Option<u64>,
    /// Every index accepted so far. None is forgotten: this is the definition, no bit mask.
    pub accepted: BTreeSet<u64>,
}

impl ReplayList {
    /// Nothing accepted yet, H as given.
    pub fn starting_at(highest: Option<u64>) -> ReplayList {
        ReplayList { highest, accepted: BTreeSet::new() }
    }

    /// OLD or REPEAT, if either holds of the index.
    pub fn judge(&self, index: u64) -> Result<(), Refusal> {
        let is_old =
            self.highest.is_some_and(|highest| highest.saturating_sub(index) >= WINDOW_LENGTH);
        Refusal::Old.unless(!is_old)?;
        Refusal::Repeat.unless(!self.accepted.contains(&index))
    }

    /// Marks an index whose packet was opened.
    pub fn accept(&mut self, index: u64) {
        self.accepted.insert(index);
        self.highest = self.highest.max(Some(index));
    }
}
