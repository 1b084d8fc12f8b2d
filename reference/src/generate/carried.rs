//! Indices for a receiver that reads the rollover count (RFC 4771): most of them of packets that
//! carry it, at the limits of what is let in.

use super::{set_ups, window};
use crate::index::{self, MAX_MEDIA_INDEX};
use crate::random::Random;
use crate::replay::WINDOW_LENGTH;

/// Half the sequence numbers: an estimate reaches no farther ahead.
const HALF: u64 = 1 << 15;
const NUMBERS: u64 = 1 << 16;

/// The nearest one at an index or before it. Number 0 always carries the count.
fn at_or_before(index: u64, rate: u16) -> u64 {
    index - u64::from(index::number(index).checked_rem(rate).unwrap_or(0))
}

/// The nearest one after an index: of the same count, or number 0 of the next. Beyond the last
/// index it is the last one.
pub fn after(index: u64, rate: u16) -> u64 {
    let next = rollover_after(index).min(at_or_before(index, rate) + u64::from(rate));
    at_or_before(next.min(MAX_MEDIA_INDEX), rate)
}

/// The first index of the next rollover.
fn rollover_after(index: u64) -> u64 {
    (index / NUMBERS + 1) * NUMBERS
}

/// The next index that the rate divides. Its number need not carry the count, though a sender
/// that goes by the index would think so.
fn lookalike(index: u64, rate: u16) -> u64 {
    let rate = u64::from(rate).max(1);
    ((index / rate + 1) * rate).min(MAX_MEDIA_INDEX)
}

/// A sender's step from its last number to the next one that carries the count, or that seems to,
/// or to the next rollover; or towards it, if it is far.
pub fn step(random: &mut Random, last: u64, rate: u16) -> u16 {
    let next = random.weighted([
        (6, after(last, rate)),
        (4, lookalike(last, rate)),
        (3, rollover_after(last)),
    ]);
    (next - last).min(HALF - 1) as u16
}

/// A first index for a receiver without H, of the started count or of any other.
pub fn first(random: &mut Random, started_count: u32, rate: u16) -> u64 {
    let any = random.bits() as u32;
    let count = random.weighted([
        (30, started_count),
        (15, started_count.wrapping_add(1)),
        (15, started_count.wrapping_sub(1)),
        (10, 0),
        (10, u32::MAX),
        (20, any),
    ]);
    at_or_before(index::join(count, set_ups::number(random)), rate)
}

/// An index about the receiver's highest: mostly the next, often late, at times a jump ahead or
/// farther than an estimate reaches.
pub fn next(random: &mut Random, highest: u64, rate: u16) -> u64 {
    let ahead = |distance| after(highest + distance, rate);
    let behind = |distance| at_or_before(highest.saturating_sub(distance), rate);
    let jump = window::jump(random);
    let late = window::lateness(random);
    let far = far_ahead(random, highest, rate);
    let over_rollover = rollover_after(highest) + random.within(0..=30);
    // Half the numbers ahead of a low H, an estimate would be below 0.
    let is_low = highest < HALF;
    let index = random.weighted([
        (30, ahead(0)),
        (8, ahead(jump)),
        (6, at_or_before(over_rollover, rate)),
        (12, lookalike(highest, rate)),
        (10, behind(0)),
        (31, behind(late)),
        (3, behind(NUMBERS)),
        (8 + 200 * u64::from(is_low), ahead(HALF)),
        (10, far),
    ]);
    index.min(MAX_MEDIA_INDEX)
}

/// An index that no estimate leads to from the receiver's highest, as far as there is one: up to
/// a rollover ahead, several, or as many as there are left.
pub fn far_ahead(random: &mut Random, highest: u64, rate: u16) -> u64 {
    let part = random.within(HALF..=NUMBERS - 1);
    let rollovers = NUMBERS * random.within(1..=5);
    let any_count = random.within(highest / NUMBERS..=u64::from(u32::MAX)) * NUMBERS;
    let index = random.weighted([
        (40, highest + part),
        (40, highest + rollovers + part),
        (10, any_count + part),
        (10, MAX_MEDIA_INDEX),
    ]);
    after(index.min(MAX_MEDIA_INDEX), rate)
}

/// An index ahead of the receiver's highest, and a later one whose packet comes first: then the
/// other is late by less than the window, to its end or beyond it, or over a rollover.
pub fn late(random: &mut Random, highest: u64, rate: u16) -> (u64, u64) {
    let rollover = rollover_after(highest);
    let next = after(highest, rate);
    let lateness = window::lateness(random);
    // Number 0 carries the count, so that its packet is let in from any distance.
    let past_rollover = rollover + random.pick([0, 0, lateness / 2]);
    let (late, later) = random.weighted([
        (3, (next, next + WINDOW_LENGTH - 1)),
        (3, (next, next + WINDOW_LENGTH)),
        (3, (next, next + lateness)),
        (6, (at_or_before(rollover - 1, rate), past_rollover)),
    ]);
    (late, later.min(MAX_MEDIA_INDEX))
}

/// Some indices from 10 before one to 20 after it whose packets don't carry the count.
pub fn companions(random: &mut Random, index: u64, rate: u16) -> Vec<u64> {
    let nearby = (0..random.within(1..=5)).map(|_| index + random.within(0..=30));
    let nearby = nearby.map(|index| index.saturating_sub(10).min(MAX_MEDIA_INDEX));
    nearby.filter(|index| at_or_before(*index, rate) != *index).collect()
}
