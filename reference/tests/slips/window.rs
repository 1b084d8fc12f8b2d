//! Slips in a replay window that is kept as a row of words and shifted as H rises. Each is one
//! change to a row that is kept right.

use super::done::Done;
use reference::replay::{ReplayList, WINDOW_LENGTH};
use reference::trace::Call::{self, ReceiveMedia};
use std::array;

/// Marks that a word holds.
const WORD_LENGTH: u64 = u64::BITS as u64;
const WORDS: usize = (WINDOW_LENGTH / WORD_LENGTH) as usize;

/// Place p of the row, bit p % 64 of word p / 64, is marked where H - p was let in.
type Words = [u64; WORDS];

/// How a row is kept.
pub struct Row {
    /// By how many places the row is shifted as H rises so far.
    shift: fn(rise: u64) -> u64,
    /// How many whole words a shift has.
    whole_words: fn(shift: u64) -> u64,
    /// What stays of a word in the word that it is shifted to.
    stay: fn(word: u64, bits: u32) -> u64,
    /// What the word below brings into word `at`.
    carry: fn(at: usize, below: u64, bits: u32) -> u64,
    /// What becomes of a word that nothing is shifted to.
    leave: fn(word: u64) -> u64,
    /// Word and bit of a place.
    find: fn(place: u64) -> (u64, u64),
}

/// The row that is kept right.
pub const RIGHT: Row = Row {
    shift: |rise| rise,
    whole_words: |shift| shift / WORD_LENGTH,
    stay: |word, bits| word << bits,
    carry: |_, below, bits| below.checked_shr(u64::BITS - bits).unwrap_or(0),
    leave: |_| 0,
    find: |place| (place / WORD_LENGTH, place % WORD_LENGTH),
};

pub const SLIPS: &[(&str, Row)] = &[
    ("the row is shifted by one too many", Row { shift: |rise| rise + 1, ..RIGHT }),
    (
        "the row is cleared at a jump of 1,023",
        Row { shift: |rise| if rise < WINDOW_LENGTH - 1 { rise } else { WINDOW_LENGTH }, ..RIGHT },
    ),
    (
        "marks are kept at a jump of 1,024 or more",
        Row { shift: |rise| if rise < WINDOW_LENGTH { rise } else { 0 }, ..RIGHT },
    ),
    ("a jump counts modulo 1,024", Row { shift: |rise| rise % WINDOW_LENGTH, ..RIGHT }),
    (
        "whole words are shifted one too far",
        Row { whole_words: |shift| shift / WORD_LENGTH + 1, ..RIGHT },
    ),
    ("whole words are not shifted", Row { whole_words: |_| 0, ..RIGHT }),
    (
        "a word is shifted by one too many",
        Row { stay: |word, bits| word.checked_shl(bits + 1).unwrap_or(0), ..RIGHT },
    ),
    ("a border is crossed without its carry", Row { carry: |_, _, _| 0, ..RIGHT }),
    (
        "the last border is crossed without its carry",
        Row {
            carry: |at, below, bits| (RIGHT.carry)(at, below, bits) * u64::from(at < WORDS - 1),
            ..RIGHT
        },
    ),
    (
        "a shift by whole words carries the word below",
        Row { carry: |_, below, bits| below.wrapping_shr(u64::BITS - bits), ..RIGHT },
    ),
    ("the words that a jump empties are not cleared", Row { leave: |word| word, ..RIGHT }),
    (
        "a mark is set in the word one too high",
        Row { find: |place| (place / WORD_LENGTH + 1, place % WORD_LENGTH), ..RIGHT },
    ),
    (
        "a word's last place is marked in the next word",
        Row { find: |place| ((place + 1) / WORD_LENGTH, place % WORD_LENGTH), ..RIGHT },
    ),
    (
        "a mark is set one place too far behind",
        Row { find: |place| (RIGHT.find)(place + 1), ..RIGHT },
    ),
];

impl Row {
    /// The row after a rise of H.
    fn shifted(&self, words: &Words, rise: u64) -> Words {
        let shift = (self.shift)(rise);
        let (whole_words, bits) = ((self.whole_words)(shift), (shift % WORD_LENGTH) as u32);
        array::from_fn(|at| match at.checked_sub(whole_words as usize) {
            None => (self.leave)(words[at]),
            Some(from) => {
                let below = from.checked_sub(1).map_or(0, |below| words[below]);
                (self.stay)(words[from], bits) | (self.carry)(at, below, bits)
            }
        })
    }

    /// Marks a place, if the row has it.
    fn mark(&self, words: &mut Words, place: u64) {
        let (word, bit) = (self.find)(place);
        words.iter_mut().skip(word as usize).take(1).for_each(|word| *word |= 1 << bit);
    }

    /// The list after an index was let in, kept as the row.
    fn accept(&self, before: &ReplayList, index: u64) -> ReplayList {
        let risen = before.highest.max(Some(index)).unwrap_or(index);
        let rise = risen - before.highest.unwrap_or(risen);
        let words = row_of(before);
        let mut words = if rise > 0 { self.shifted(&words, rise) } else { words };
        self.mark(&mut words, risen - index);
        ReplayList { highest: Some(risen), accepted: indices_of(&words, risen).collect() }
    }
}

/// The right row of a list.
fn row_of(list: &ReplayList) -> Words {
    let mut words = [0; WORDS];
    for index in &list.accepted {
        let place = list.highest.unwrap_or(*index) - index;
        RIGHT.mark(&mut words, place);
    }
    words
}

/// The indices that a row marks.
fn indices_of(words: &Words, highest: u64) -> impl Iterator<Item = u64> + '_ {
    let is_marked =
        |place: &u64| words[(place / WORD_LENGTH) as usize] >> (place % WORD_LENGTH) & 1 == 1;
    (0..WINDOW_LENGTH).filter(is_marked).filter_map(move |place| highest.checked_sub(place))
}

impl Done<'_> {
    /// Keeps the list of one kind as a row.
    pub fn keep_as(&mut self, call: Call, row: &Row) {
        if self.finished(call) {
            let list = row.accept(self.before.replay_list(call), self.answer.index);
            let receiver = &mut self.after.receiver;
            match call {
                ReceiveMedia => receiver.media = list,
                _ => receiver.control = list,
            }
        }
    }
}
