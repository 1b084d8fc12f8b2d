//! What evenings have shown, counted.

use super::corners::{Seen, CORNERS};
use std::fmt;

/// Counts of some evenings. An answer that the property forbids is in none but the first three.
#[derive(Clone, Debug, PartialEq, Eq)]
pub struct Tally {
    /// Evenings judged.
    pub evenings: u64,
    /// Media packets sent.
    pub sent: u64,
    /// Deliveries.
    pub delivered: u64,
    /// First deliveries that were let in.
    pub let_in: u64,
    /// Other deliveries, refused as REPEAT.
    pub repeated: u64,
    /// Strange strings refused.
    pub strange: u64,
    corners: Vec<u64>,
}

impl Default for Tally {
    fn default() -> Self {
        Tally {
            evenings: 0,
            sent: 0,
            delivered: 0,
            let_in: 0,
            repeated: 0,
            strange: 0,
            corners: vec![0; CORNERS.len()],
        }
    }
}

impl Tally {
    /// Counts a call.
    pub(super) fn count(&mut self, seen: &Seen) {
        self.let_in += u64::from(seen.is_let_in());
        self.repeated += u64::from(seen.is_repeat());
        self.strange += u64::from(seen.is_strange());
        for (count, (_, holds)) in self.corners.iter_mut().zip(CORNERS) {
            *count += u64::from(holds(seen));
        }
    }

    /// Adds the counts of other evenings.
    pub fn add(&mut self, other: &Tally) {
        self.evenings += other.evenings;
        self.sent += other.sent;
        self.delivered += other.delivered;
        self.let_in += other.let_in;
        self.repeated += other.repeated;
        self.strange += other.strange;
        for (count, more) in self.corners.iter_mut().zip(&other.corners) {
            *count += more;
        }
    }

    /// The corners that no evening met. Where there was no evening, none is missed.
    pub fn gaps(&self) -> Vec<String> {
        let missed = self.corners.iter().zip(CORNERS).filter(|(count, _)| **count == 0);
        let names = missed.map(|(_, (name, _))| format!("whole evening: {name}"));
        names.filter(|_| self.evenings > 0).collect()
    }
}

impl fmt::Display for Tally {
    fn fmt(&self, f: &mut fmt::Formatter<'_>) -> fmt::Result {
        let sums = [
            ("whole evenings", self.evenings),
            ("sent", self.sent),
            ("delivered", self.delivered),
            ("let in at the first delivery", self.let_in),
            ("refused as REPEAT at a later one", self.repeated),
            ("refused, strange", self.strange),
        ];
        let corners = CORNERS.iter().zip(&self.corners).map(|((name, _), count)| (*name, *count));
        let lines = sums.into_iter().chain(corners);
        let lines: Vec<String> =
            lines.map(|(name, count)| format!("{name:70}{count:>9}")).collect();
        f.write_str(&lines.join("\n"))
    }
}
