//! The replay window (RFC 3711, 3.3.2) as a ring of words.

use reference::refusal::Refusal;
use reference::replay::WINDOW_LENGTH;

const BITS: u64 = u64::BITS as u64;
/// Twice the window, so that a whole word can be cleared while the window moves (RFC 6479).
const WORDS: u64 = 2 * WINDOW_LENGTH / BITS;

/// H, and a bit for each index of the window: whether it was accepted.
#[derive(Default)]
pub struct Window {
    highest: Option<u64>,
    words: [u64; WORDS as usize],
}

impl Window {
    /// H: the highest index accepted.
    pub fn highest(&self) -> Option<u64> {
        self.highest
    }

    /// OLD or REPEAT, if either holds of the index.
    pub fn judge(&self, index: u64) -> Result<(), Refusal> {
        let Some(highest) = self.highest.filter(|highest| index <= *highest) else {
            return Ok(());
        };
        Refusal::Old.unless(highest - index < WINDOW_LENGTH)?;
        let is_accepted = self.words[place(index / BITS)] >> (index % BITS) & 1 == 1;
        Refusal::Repeat.unless(!is_accepted)
    }

    /// Marks an index whose packet was opened.
    pub fn accept(&mut self, index: u64) {
        let highest = self.highest.map_or(index, |highest| highest.max(index));
        let (before, after) = (self.highest.unwrap_or(0) / BITS, highest / BITS);
        for word in before + 1..=after.min(before + WORDS) {
            self.words[place(word)] = 0;
        }
        self.highest = Some(highest);
        self.words[place(index / BITS)] |= 1 << (index % BITS);
    }
}

fn place(word: u64) -> usize {
    (word % WORDS) as usize
}
