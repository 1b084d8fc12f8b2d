//! Set-up values, good and refused, and where receivers start.

use crate::random::Random;
use crate::settings::{Integrity, SetUp, Start};
use crate::settings::{MASTER_KEY_LENGTH, MAX_MKI_LENGTH, RCCM2_TAG_LENGTH, SALT_LENGTH};

/// RCCm2's tag length as the field of a set-up.
const RCCM2_TAG: u8 = RCCM2_TAG_LENGTH as u8;

/// Values that are on the list, two of five under RCCm2.
pub fn good(random: &mut Random) -> SetUp {
    let is_rccm2 = random.percent(40);
    let integrity = if is_rccm2 { rccm2(random) } else { Integrity::HmacSha1 };
    under(random, integrity)
}

/// Values that are on the list if the transform is.
pub fn under(random: &mut Random, integrity: Integrity) -> SetUp {
    let mki_length = random.length(0..=MAX_MKI_LENGTH);
    let any_ssrc = random.bits() as u32;
    SetUp {
        tag_length: tag_length(random, integrity),
        cipher: random.pick([0, 1, 1]),
        ssrc: random.weighted([(1, 0), (1, u32::MAX), (8, any_ssrc)]),
        master_key: random.bytes(MASTER_KEY_LENGTH),
        master_salt: random.bytes(SALT_LENGTH),
        mki: random.bytes(mki_length),
        integrity,
    }
}

/// A length on the transform's list.
fn tag_length(random: &mut Random, integrity: Integrity) -> u8 {
    match integrity {
        Integrity::HmacSha1 => random.pick([4, 10]),
        Integrity::Rccm2 { .. } => RCCM2_TAG,
    }
}

/// RCCm2 with a rate that divides 65,536 or, more often, doesn't: then it need not divide both an
/// index and its number.
pub fn rccm2(random: &mut Random) -> Integrity {
    let small = random.within(4..=40) as u16;
    let any = random.within(1..=65_535) as u16;
    let rate = random.weighted([
        (15, 1),
        (7, 2),
        (25, 3),
        (7, 16),
        (6, 256),
        (12, 65_535),
        (18, small),
        (10, any),
    ]);
    Integrity::Rccm2 { rate }
}

/// Another good set-up that differs in one value.
pub fn neighbour(random: &mut Random, good: &SetUp) -> SetUp {
    let mut values = good.clone();
    match random.within(0..=7) {
        0 | 1 => values.master_key = random.bytes(MASTER_KEY_LENGTH),
        2 => values.master_salt = random.bytes(SALT_LENGTH),
        3 | 4 => change_tag(random, &mut values),
        5 => values.cipher = if good.cipher == 0 { 1 } else { 0 },
        6 => values.ssrc = good.ssrc.wrapping_add(random.pick([1, 0x100_0000])),
        _ => {
            let length = random.length(0..=MAX_MKI_LENGTH);
            values.mki = random.bytes(length);
        }
    }
    values
}

/// Another tag length, rate or transform.
fn change_tag(random: &mut Random, values: &mut SetUp) {
    let integrity = match (values.integrity, random.percent(70)) {
        (Integrity::HmacSha1, true) => {
            values.tag_length = if values.tag_length == 4 { 10 } else { 4 };
            return;
        }
        (Integrity::HmacSha1, false) => rccm2(random),
        (Integrity::Rccm2 { rate }, true) => Integrity::Rccm2 { rate: other_rate(random, rate) },
        (Integrity::Rccm2 { .. }, false) => Integrity::HmacSha1,
    };
    values.integrity = integrity;
    values.tag_length = tag_length(random, integrity);
}

/// Another rate, under which many a packet is the same.
fn other_rate(random: &mut Random, rate: u16) -> u16 {
    let double = rate.wrapping_mul(2).max(1);
    let next = rate.wrapping_add(1).max(1);
    let choice = random.pick([double, next, 1, 2, 3, 65_535]);
    if choice == rate {
        next
    } else {
        choice
    }
}

/// The same with one value off the list, now and then two.
pub fn refused(random: &mut Random, good: &SetUp) -> SetUp {
    let mut values = good.clone();
    spoil(random, &mut values);
    if random.percent(20) {
        spoil(random, &mut values);
    }
    values
}

fn spoil(random: &mut Random, values: &mut SetUp) {
    match random.within(0..=5) {
        0 | 1 => spoil_tag(random, values),
        2 => values.cipher = off_list(random, 2, |number| number > 1),
        3 => {
            let length = off_list(random, MASTER_KEY_LENGTH as u8, |length| length != 16);
            values.master_key = random.bytes(usize::from(length));
        }
        4 => {
            let length = off_list(random, SALT_LENGTH as u8, |length| length != 14);
            values.master_salt = random.bytes(usize::from(length));
        }
        _ => {
            let length = off_list(random, MAX_MKI_LENGTH as u8, |length| length > 4);
            values.mki = random.bytes(usize::from(length));
        }
    }
}

/// A tag length that the transform doesn't have, most often the other's, or a rate of 0.
fn spoil_tag(random: &mut Random, values: &mut SetUp) {
    let is_swapped = random.percent(40);
    (values.integrity, values.tag_length) = match (values.integrity, is_swapped) {
        (Integrity::HmacSha1, true) => (rccm2(random), random.pick([4, 10])),
        (Integrity::Rccm2 { .. }, true) => (Integrity::HmacSha1, RCCM2_TAG),
        (Integrity::HmacSha1, false) => {
            let length = off_list(random, 0, |length| !matches!(length, 4 | 10));
            (Integrity::HmacSha1, random.weighted([(3, length), (1, RCCM2_TAG)]))
        }
        (integrity, false) => {
            let length = off_list(random, RCCM2_TAG, |length| length != RCCM2_TAG);
            let other = (integrity, random.pick([0, 4, 10, 13, 15, length]));
            random.weighted([(3, other), (2, (Integrity::Rccm2 { rate: 0 }, RCCM2_TAG))])
        }
    };
}

/// A byte off the list: often one near the limit, or one that another profile would allow.
fn off_list(random: &mut Random, limit: u8, is_off: fn(u8) -> bool) -> u8 {
    loop {
        let near = limit.wrapping_add(random.within(0..=4) as u8).wrapping_sub(2);
        let byte = match random.within(0..=9) {
            0..=3 => near,
            4 => random.pick([0, 5, 8, 14, 16, 20, 24, 32, 255]),
            _ => random.byte(),
        };
        if is_off(byte) {
            return byte;
        }
    }
}

/// A sequence number, mostly near an end or the middle.
pub fn number(random: &mut Random) -> u16 {
    let any = random.bits() as u16;
    let offset = random.within(0..=12) as u16;
    let edge = random.pick([0u16, 0, 32_768]).wrapping_add(offset).wrapping_sub(6);
    random.weighted([(75, edge), (25, any)])
}

/// The number that a sender begins at: under RCCm2 mostly just before a rollover, behind which
/// the rate divides other indices than numbers.
pub fn first_number(random: &mut Random, integrity: Integrity) -> u16 {
    let before_rollover = u16::MAX - random.within(0..=12) as u16;
    match integrity {
        Integrity::Rccm2 { .. } if random.percent(60) => before_rollover,
        _ => number(random),
    }
}

/// A start anywhere, with a liking for both ends of the index.
pub fn start(random: &mut Random) -> Start {
    let any = random.bits() as u32;
    let rollover_count =
        random.weighted([(30, 0), (15, 1), (5, 2), (25, u32::MAX), (10, u32::MAX - 1), (15, any)]);
    let known = random.percent(60);
    Start { rollover_count, last_number: known.then(|| number(random)) }
}

/// A start for a link whose sender begins at this number. Where the sender's tags carry its
/// count, a receiver may join late and start with any.
pub fn start_of_link(random: &mut Random, first_number: u16, integrity: Integrity) -> Start {
    if integrity != Integrity::HmacSha1 && random.percent(50) {
        let any = random.bits() as u32;
        let rollover_count = random.weighted([(3, 1), (2, u32::MAX), (2, any)]);
        return Start { rollover_count, last_number: None };
    }
    let known = first_number > 0 && random.percent(40);
    Start { rollover_count: 0, last_number: known.then(|| first_number - 1) }
}
