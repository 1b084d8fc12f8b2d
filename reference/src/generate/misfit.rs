//! Records that don't fit their layout.

use super::recorder::Recorder;
use super::set_ups;
use crate::random::Random;
use crate::settings::{Integrity, SetUp};
use crate::trace::{receiver_body, sender_body, setting, Call, Record};
use crate::trace::{MAX_BODY_LENGTH, MAX_ROOM, RATE_ID};

/// Adds a record that doesn't fit, or that only just does.
pub fn record(random: &mut Random, recorder: &mut Recorder) {
    match random.within(0..=9) {
        0 | 1 => unknown_op(random, recorder),
        2..=4 => set_up(random, recorder),
        5 => short_body(random, recorder),
        6 | 7 => large_room(random, recorder),
        _ => large_body(random, recorder),
    }
}

/// The front of a record: what a trace may end with.
pub fn cut_record(random: &mut Random) -> Vec<u8> {
    let mut record = Vec::new();
    let length = random.pick([0, 1, 2, 40, 300, MAX_BODY_LENGTH + 5]);
    let body = random.bytes(length);
    Record { op: random.within(0..=8) as u8, body: &body }.write(&mut record);
    let kept = random.length(1..=record.len() - 1);
    record.truncate(kept);
    record
}

fn unknown_op(random: &mut Random, recorder: &mut Recorder) {
    let op = random.pick([0, 7, 8, 9, 127, 128, 254, 255]);
    let length = random.pick([0, 1, 2, 40, 300]);
    let body = random.bytes(length);
    recorder.record(op, &body);
}

/// A set-up that is cut, or followed by wrong settings, or neither known nor unknown.
fn set_up(random: &mut Random, recorder: &mut Recorder) {
    let call = random.pick([Call::SetUpSender, Call::SetUpReceiver]);
    let values = set_ups::good(random);
    let mut body = match call {
        Call::SetUpSender => sender_body(&values),
        _ => receiver_body(&values, set_ups::start(random), random.bits() as u16),
    };
    match random.within(0..=6) {
        0 | 1 => body.truncate(random.length(0..=body.len() - 1)),
        2 | 3 => body.extend(wrong_settings(random, values.integrity)),
        4 => body.push(random.byte()),
        5 if call == Call::SetUpReceiver => {
            let fields = sender_body(&SetUp { integrity: Integrity::HmacSha1, ..values }).len();
            body[fields + 4] = random.pick([2, 3, 128, 255]);
        }
        _ => {
            let more = random.length(1..=30);
            body.extend(random.bytes(more));
        }
    }
    recorder.record(call.op(), &body);
}

/// Settings that don't fit behind those of the transform: unknown, of another length, twice, or
/// cut.
fn wrong_settings(random: &mut Random, integrity: Integrity) -> Vec<u8> {
    let rate = setting(RATE_ID, &random.bytes(2));
    // Ids far from those that come first.
    let high_id = random.within(200..=255) as u8;
    let length = random.length(0..=4);
    let unknown = setting(random.weighted([(1, 0), (4, high_id)]), &random.bytes(length));
    match random.within(0..=5) {
        0 => unknown,
        1 => [unknown, rate].concat(),
        2 => {
            let length = random.pick([0, 1, 3, 4]);
            setting(RATE_ID, &random.bytes(length))
        }
        3 if integrity == Integrity::HmacSha1 => [&rate[..], &rate].concat(),
        3 => rate,
        4 => rate[..random.length(1..=3)].to_vec(),
        _ => [rate, random.bytes(1)].concat(),
    }
}

fn short_body(random: &mut Random, recorder: &mut Recorder) {
    let call = random.pick(Call::ALL);
    let length = random.length(0..=1);
    let body = random.bytes(length);
    recorder.record(call.op(), &body);
}

/// Buffers about the largest, as often allowed as not.
fn large_room(random: &mut Random, recorder: &mut Recorder) {
    let call = packet_call(random);
    let room = random.pick([MAX_ROOM - 1, MAX_ROOM, MAX_ROOM + 1, 8192, 65_535]);
    let length = random.length(0..=40);
    let packet = random.bytes(length);
    recorder.call(call, room, &packet);
}

/// Bodies about the longest.
fn large_body(random: &mut Random, recorder: &mut Recorder) {
    let op = random.within(0..=7) as u8;
    let length = random.weighted([
        (6, MAX_BODY_LENGTH),
        (6, MAX_BODY_LENGTH + 1),
        (3, MAX_BODY_LENGTH - 1),
        (2, MAX_BODY_LENGTH + 300),
        (1, 65_535),
    ]);
    let mut body = random.bytes(length);
    body[..2].copy_from_slice(&[0, 40]);
    recorder.record(op, &body);
}

/// One of the four calls on packets.
pub fn packet_call(random: &mut Random) -> Call {
    random.pick([Call::SendMedia, Call::SendControl, Call::ReceiveMedia, Call::ReceiveControl])
}
