//! Arithmetic of the packet index (RFC 3711, 3.3.1).
//!
//! Index = 65,536 * rollover count + sequence number. Unlike the RFC's modulo, an index never
//! wraps past either end.

use crate::refusal::Refusal;

/// The largest media index.
pub const MAX_MEDIA_INDEX: u64 = (1 << 48) - 1;
/// The largest control index.
pub const MAX_CONTROL_INDEX: u64 = (1 << 31) - 1;

const NUMBERS: i64 = 1 << 16;
/// The farthest ahead that a number is read as; one more is behind. Half the numbers away counts
/// as ahead.
const FARTHEST_AHEAD: i64 = NUMBERS / 2;

/// The index that a rollover count and a sequence number give.
pub fn join(rollover_count: u32, number: u16) -> u64 {
    u64::from(rollover_count) << 16 | u64::from(number)
}

/// The rollover count that an index carries.
pub fn rollover_count(index: u64) -> u32 {
    (index >> 16) as u32
}

/// The sequence number that an index carries.
pub fn number(index: u64) -> u16 {
    index as u16
}

/// The index of a sender's next packet.
pub fn next_sent(last: Option<u64>, new_number: u16) -> Result<u64, Refusal> {
    let Some(last) = last else {
        return Ok(u64::from(new_number));
    };
    let step = new_number.wrapping_sub(number(last));
    Refusal::Order.unless((1..1 << 15).contains(&step))?;
    let index = last.saturating_add(u64::from(step));
    Refusal::Spent.unless(index <= MAX_MEDIA_INDEX)?;
    Ok(index)
}

/// The one distance from -32,767 to 32,768 that leads from the highest index to the number.
pub fn distance(highest: u64, received: u16) -> i64 {
    let ahead = i64::from(received.wrapping_sub(number(highest)));
    if ahead <= FARTHEST_AHEAD {
        ahead
    } else {
        ahead - NUMBERS
    }
}

/// The index of a received number, not yet known to lie between the ends.
pub fn estimate(highest: Option<u64>, started_count: u32, received: u16) -> i128 {
    match highest {
        None => i128::from(join(started_count, received)),
        Some(highest) => i128::from(highest) + i128::from(distance(highest, received)),
    }
}

/// The estimate if it is an index: SPENT above the last one, OLD below zero.
pub fn within_ends(estimate: i128) -> Result<u64, Refusal> {
    Refusal::Spent.unless(estimate <= i128::from(MAX_MEDIA_INDEX))?;
    u64::try_from(estimate).map_err(|_| Refusal::Old)
}
