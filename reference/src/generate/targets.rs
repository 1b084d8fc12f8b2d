//! Which number or index a packet gets: mostly the next, often one at a limit of the rules.

use super::{carried, set_ups, window};
use crate::index::{self, MAX_CONTROL_INDEX, MAX_MEDIA_INDEX};
use crate::random::Random;
use crate::replay::WINDOW_LENGTH;
use crate::settings::Integrity;

/// Half the sequence numbers.
const HALF: i64 = 1 << 15;

/// A sender's next number after its last index.
pub fn next_number(random: &mut Random, last: u64, integrity: Integrity) -> u16 {
    let (weight, to_carrying) = match integrity {
        Integrity::HmacSha1 => (0, 0),
        Integrity::Rccm2 { rate } => (25, carried::step(random, last, rate)),
    };
    let few = random.within(2..=5) as u16;
    let jump = window::jump(random) as u16;
    let many = random.within(6..=32_766) as u16;
    let behind = random.within(32_769..=65_535) as u16;
    let to_rollover = 0u16.wrapping_sub(index::number(last));
    let step = random.weighted([
        (60, 1),
        (15, few),
        (10, jump),
        (5, many),
        (4, to_rollover),
        (weight, to_carrying),
        (4, 32_767),
        (4, 32_768),
        (4, 0),
        (4, behind),
    ]);
    index::number(last).wrapping_add(step)
}

/// A first index for a receiver without H: the started count's, at times another count's.
pub fn first_media(random: &mut Random, started_count: u32) -> i64 {
    let number = set_ups::number(random);
    let other_count = random.weighted([(90, 0), (5, 2 * HALF), (5, -2 * HALF)]);
    index::join(started_count, number) as i64 + other_count
}

/// An index about the receiver's highest, in, before or behind the window, or half the numbers
/// away. It may lie beyond either end.
pub fn next_media(random: &mut Random, highest: u64) -> i64 {
    let highest = highest as i64;
    let to_rollover = 2 * HALF - highest % (2 * HALF) - 3 + random.within(0..=6) as i64;
    let anywhere = random.within(0..=140_000) as i64 - 70_000;
    let near = near(random);
    let to_end = MAX_MEDIA_INDEX as i64 + 1 - highest;
    let offset = random.weighted([
        (80, near),
        (12 * u64::from(to_end <= HALF), to_end),
        (2, HALF - 1),
        (2, HALF),
        (2, 1 - HALF),
        (1, 2 - HALF),
        (1, -HALF),
        (1, HALF + 1),
        (1, 2 * HALF),
        (1, -2 * HALF),
        (4, to_rollover),
        (2, anywhere),
    ]);
    highest + offset
}

/// A first control index.
pub fn first_control(random: &mut Random) -> u64 {
    let any = random.within(0..=MAX_CONTROL_INDEX);
    let near_end = near_control_end(random);
    random.weighted([(4, 0), (2, 1), (2, WINDOW_LENGTH), (2, any), (2, near_end)])
}

/// A control index about the receiver's highest.
pub fn next_control(random: &mut Random, highest: u64) -> u64 {
    let any = random.within(0..=MAX_CONTROL_INDEX);
    let near_end = near_control_end(random);
    let near = (highest as i64 + near(random)).clamp(0, MAX_CONTROL_INDEX as i64) as u64;
    random.weighted([(96, near), (1, any), (1, near_end)])
}

fn near_control_end(random: &mut Random) -> u64 {
    MAX_CONTROL_INDEX - random.within(0..=3)
}

/// A distance about the window: on to the next index or by a jump, or back to its end or a little
/// beyond.
fn near(random: &mut Random) -> i64 {
    let few = random.within(2..=8) as i64;
    let jump = window::jump(random) as i64;
    let late = window::lateness(random) as i64;
    random.weighted([(30, 1), (12, few), (12, jump), (5, 0), (40, -late)])
}
