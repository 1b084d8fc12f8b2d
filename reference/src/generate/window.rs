//! Places about the replay window. An implementation may keep its marks in a row of words that it
//! shifts as H rises, so the borders of such words are limits as well as the window's end.

use crate::random::Random;
use crate::replay::{ReplayList, WINDOW_LENGTH};

/// Marks that a word of such a row holds.
pub const WORD_LENGTH: u64 = 64;
/// Words of the row.
pub const WORDS: u64 = WINDOW_LENGTH / WORD_LENGTH;

/// How far H rises in a jump: about a whole number of words, about the window's length, or any
/// distance up to a little more.
pub fn jump(random: &mut Random) -> u64 {
    let border = about_a_border(random);
    let end = random.within(WINDOW_LENGTH - 2..=WINDOW_LENGTH + 2);
    let any = random.within(2..=WINDOW_LENGTH + 80);
    random.weighted([(5, border), (3, end), (2, any)])
}

/// How far behind H a late packet is: within the window, at its end, or beyond it.
pub fn lateness(random: &mut Random) -> u64 {
    let border = about_a_border(random);
    let first_word = random.within(1..=WORD_LENGTH - 1);
    let last_word = random.within(WINDOW_LENGTH - WORD_LENGTH..=WINDOW_LENGTH - 2);
    let within = random.within(1..=WINDOW_LENGTH - 2);
    let beyond = random.within(WINDOW_LENGTH + 1..=WINDOW_LENGTH + 240);
    random.weighted([
        (8, first_word),
        (5, last_word),
        (8, within),
        (8, border),
        (5, WINDOW_LENGTH - 1),
        (5, WINDOW_LENGTH),
        (3, beyond),
    ])
}

/// A whole number of words, often one or two, or a place more or less.
fn about_a_border(random: &mut Random) -> u64 {
    let any = random.within(1..=WORDS);
    let words = random.weighted([(2, 1), (2, 2), (6, any)]);
    words * WORD_LENGTH + random.within(0..=2) - 1
}

/// An index to ask the window about: mostly an accepted one, or one beside it or a word away, from
/// the farthest behind to H. None without H.
pub fn probed(random: &mut Random, list: &ReplayList) -> Option<u64> {
    let highest = list.highest?;
    let oldest = highest.saturating_sub(WINDOW_LENGTH);
    let marks: Vec<u64> = list.accepted.range(oldest..).copied().collect();
    let mark = marks.get(random.length(0..=marks.len())).copied().unwrap_or(highest);
    let beside = random.pick([1, WORD_LENGTH]);
    let late = highest.saturating_sub(lateness(random));
    let index = random.weighted([
        (5, mark),
        (2, mark + beside),
        (2, mark.saturating_sub(beside)),
        (3, late),
    ]);
    Some(index.min(highest))
}
