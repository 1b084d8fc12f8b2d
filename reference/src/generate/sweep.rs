//! Every value of every field of a set-up, on the list or off it.

use super::recorder::Recorder;
use super::{plain, set_ups};
use crate::random::Random;
use crate::settings::{Integrity, SetUp};
use crate::trace::{receiver_body, sender_body, Call};

/// The rates that are tried: the first ones, and those about powers of two and at the end.
fn rates() -> impl Iterator<Item = u16> {
    (0..=300).chain([511, 512, 513, 32_767, 32_768, 32_769, 65_534, 65_535])
}

/// A trace that sets up both contexts with each value and tries each context once.
pub fn set_up_sweep(seed: u64) -> Vec<u8> {
    let mut random = Random::new(seed);
    let mut recorder = Recorder::default();
    for byte in 0..=u8::MAX {
        for values in variants(&mut random, byte) {
            try_values(&mut random, &mut recorder, &values);
        }
    }
    for rate in rates() {
        let values = set_ups::under(&mut random, Integrity::Rccm2 { rate });
        try_values(&mut random, &mut recorder, &values);
    }
    recorder.into_trace()
}

/// Good values but for one field each, which has this number or this length; the tag's length
/// under both transforms.
fn variants(random: &mut Random, byte: u8) -> [SetUp; 6] {
    let good = set_ups::under(random, Integrity::HmacSha1);
    let integrity = set_ups::rccm2(random);
    let string = random.bytes(usize::from(byte));
    [
        SetUp { tag_length: byte, integrity, ..good.clone() },
        SetUp { tag_length: byte, ..good.clone() },
        SetUp { cipher: byte, ..good.clone() },
        SetUp { master_key: string.clone(), ..good.clone() },
        SetUp { master_salt: string.clone(), ..good.clone() },
        SetUp { mki: string, ..good },
    ]
}

fn try_values(random: &mut Random, recorder: &mut Recorder, values: &SetUp) {
    recorder.record(Call::SetUpSender.op(), &sender_body(values));
    let start = set_ups::start(random);
    let body = receiver_body(values, start, random.bits() as u16);
    recorder.record(Call::SetUpReceiver.op(), &body);
    let number = match values.integrity {
        Integrity::HmacSha1 => set_ups::number(random),
        // A number that carries the rollover count, or the next one.
        Integrity::Rccm2 { rate } => rate.wrapping_add(random.pick([0, 1])),
    };
    let packet = plain::small_media(random, values.ssrc, number);
    let sent = recorder.call(Call::SendMedia, packet.len() + 20, &packet);
    let protected = sent.packet().unwrap_or(&packet);
    recorder.call(Call::ReceiveMedia, packet.len(), protected);
}
