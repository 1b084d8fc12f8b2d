//! Contexts: what no trace reaches, what a refusal leaves alone, and receivers that join late.

mod common;

use common::{receiver, rtcp, rtp, sender, set_up, set_up_rccm2};
use reference::context::{Finished, Receiver, Sender};
use reference::index::{MAX_CONTROL_INDEX, MAX_MEDIA_INDEX};
use reference::refusal::Refusal;
use reference::session::Session;
use reference::settings::{Integrity, SetUp, Start};

const SPENT_CONTROL: u64 = 1 << 31;

#[test]
fn a_media_sender_is_spent_above_the_last_index() {
    let mut sender = sender(&set_up());
    sender.last_index = Some(MAX_MEDIA_INDEX - 1);
    let mut out = [0xa5; 100];
    let finished = sender.send_media(&rtp(65_535, 5), &mut out);
    assert_eq!(finished, Ok(Finished { index: MAX_MEDIA_INDEX, length: 27 }));
    let (before, mut out) = (sender.clone(), [0xa5; 100]);
    assert_eq!(sender.send_media(&rtp(0, 5), &mut out), Err(Refusal::Spent));
    assert_eq!(sender.send_media(&rtp(32_766, 5), &mut out), Err(Refusal::Spent));
    assert_eq!(sender.send_media(&rtp(65_535, 5), &mut out), Err(Refusal::Order));
    assert_eq!((sender, out), (before, [0xa5; 100]));
}

#[test]
fn a_control_sender_is_spent_after_2_to_the_31() {
    let mut sender = sender(&set_up());
    sender.control_sent = SPENT_CONTROL - 1;
    let mut out = [0xa5; 100];
    let finished = sender.send_control(&rtcp(16), &mut out);
    assert_eq!(finished, Ok(Finished { index: SPENT_CONTROL - 1, length: 38 }));
    assert_eq!(out[24..28], [0xff; 4]);
    let (before, mut out) = (sender.clone(), [0xa5; 100]);
    assert_eq!(sender.send_control(&rtcp(16), &mut out), Err(Refusal::Spent));
    assert_eq!(sender.send_control(&rtcp(16), &mut out[..10]), Err(Refusal::Room));
    assert_eq!((sender, out), (before, [0xa5; 100]));
}

/// Both calls of a sender that no set-up or run gives.
fn assert_sender_is_refused(mut sender: Sender) {
    let (before, mut out) = (sender.clone(), [0xa5; 100]);
    assert_eq!(sender.send_media(&rtp(1, 5), &mut out), Err(Refusal::Setup));
    assert_eq!(sender.send_control(&rtcp(4), &mut out), Err(Refusal::Setup));
    assert_eq!((sender, out), (before, [0xa5; 100]));
}

/// Both calls of a receiver that no set-up or run gives.
fn assert_receiver_is_refused(mut receiver: Receiver) {
    let (before, mut out) = (receiver.clone(), [0xa5; 100]);
    assert_eq!(receiver.receive_media(&rtp(1, 30), &mut out), Err(Refusal::Setup));
    assert_eq!(receiver.receive_control(&rtcp(40), &mut out), Err(Refusal::Setup));
    assert_eq!((receiver, out), (before, [0xa5; 100]));
}

#[test]
fn closed_contexts_and_marks_beyond_the_ends_are_refused() {
    assert_sender_is_refused(Sender::closed());
    assert_receiver_is_refused(Receiver::closed());
    let good = sender(&set_up());
    assert_sender_is_refused(Sender { last_index: Some(MAX_MEDIA_INDEX + 1), ..good.clone() });
    assert_sender_is_refused(Sender { control_sent: SPENT_CONTROL + 1, ..good });
    let mut far = receiver(&set_up(), 0, None);
    far.media.highest = Some(MAX_MEDIA_INDEX + 1);
    assert_receiver_is_refused(far);
    let mut far = receiver(&set_up(), 0, None);
    far.control.highest = Some(MAX_CONTROL_INDEX + 1);
    assert_receiver_is_refused(far);
}

#[test]
fn contexts_with_settings_off_the_list_are_refused() {
    let rccm2 = |rate| Integrity::Rccm2 { rate };
    let hmac = [(0, 0), (5, 0), (11, 0), (14, 0), (20, 0), (10, 5), (4, 6)];
    let long_tag = [(0, 0), (3, 0), (4, 0), (10, 0), (13, 0), (15, 0), (20, 0), (14, 5)];
    let cases = hmac.map(|lengths| (Integrity::HmacSha1, lengths)).into_iter();
    let cases = cases.chain(long_tag.map(|lengths| (rccm2(1), lengths)));
    for (integrity, (tag_length, mki_length)) in cases.chain([(rccm2(0), (14, 0))]) {
        let mut bad_sender = sender(&set_up());
        let mut bad_receiver = receiver(&set_up(), 0, None);
        for session in [&mut bad_sender.session, &mut bad_receiver.session] {
            let settings = &mut session.as_mut().unwrap().settings;
            settings.integrity = integrity;
            settings.media_tag_length = tag_length;
            settings.mki = vec![1; mki_length];
        }
        assert_sender_is_refused(bad_sender);
        assert_receiver_is_refused(bad_receiver);
    }
}

#[test]
fn every_set_up_value_off_the_list_is_refused() {
    for byte in 0..=255 {
        let string = vec![7; usize::from(byte)];
        let cases = [
            (matches!(byte, 4 | 10), SetUp { tag_length: byte, ..set_up() }),
            (byte < 2, SetUp { cipher: byte, ..set_up() }),
            (byte == 16, SetUp { master_key: string.clone(), ..set_up() }),
            (byte == 14, SetUp { master_salt: string.clone(), ..set_up() }),
            (byte <= 4, SetUp { mki: string, ..set_up() }),
            (byte == 14, SetUp { tag_length: byte, ..set_up_rccm2(7) }),
            (byte > 0, set_up_rccm2(u16::from(byte))),
            (byte > 0, set_up_rccm2(u16::from(byte) << 8)),
        ];
        for (is_good, values) in cases {
            let verdict = Refusal::Setup.unless(is_good);
            let start = Start { rollover_count: 3, last_number: Some(4) };
            let (sender, sender_verdict) = Sender::set_up(&values);
            let (receiver, receiver_verdict) = Receiver::set_up(&values, start);
            assert_eq!((sender_verdict, receiver_verdict), (verdict, verdict), "{values:?}");
            assert_eq!(sender == Sender::closed(), !is_good);
            assert_eq!(receiver == Receiver::closed(), !is_good);
        }
    }
}

#[test]
fn the_window_holds_on_both_sides_of_a_rollover() {
    let session = Session::set_up(&set_up()).unwrap();
    let mut receiver = receiver(&set_up(), 1, Some(20));
    let mut out = [0; 100];
    for index in [65_556u64, 65_530, 64_533, 65_541, 65_530] {
        let packet = session.made_media(&rtp(index as u16, 9), index).unwrap();
        let answer = receiver.receive_media(&packet, &mut out).map(|finished| finished.index);
        let is_repeat = index == 65_530 && receiver.media.accepted.contains(&65_541);
        assert_eq!(answer, if is_repeat { Err(Refusal::Repeat) } else { Ok(index) });
    }
}

/// The answers of one receiver to packets made at these indices, and its H after each.
fn receive_each(
    receiver: &mut Receiver,
    values: &SetUp,
    indices: &[u64],
) -> Vec<(Result<u64, Refusal>, Option<u64>)> {
    let session = Session::set_up(values).unwrap();
    let answer = |index: &u64| {
        let packet = session.made_media(&rtp(*index as u16, 9), *index).unwrap();
        let answer = receiver.receive_media(&packet, &mut [0; 100]);
        (answer.map(|finished| finished.index), receiver.media.highest)
    };
    indices.iter().map(answer).collect()
}

/// The sender is in its sixth rollover. Whatever count the receiver was started with, it starts
/// at number 32, which carries the right one, and the packets about it come in.
#[test]
fn a_late_joiner_starts_where_the_count_is_carried() {
    let (values, base) = (set_up_rccm2(16), 5 << 16);
    for started_count in [0, 4, 6, u32::MAX] {
        let mut receiver = receiver(&values, started_count, None);
        let untouched = receiver.clone();
        let early = receive_each(&mut receiver, &values, &[base + 30, base + 31]);
        assert_eq!(early, [(Err(Refusal::Forged), None); 2]);
        assert_eq!(receiver, untouched);
        let indices = [32, 31, 33, 30].map(|number| base + number);
        let highest = [32, 32, 33, 33].map(|number| Some(base + number));
        let answers = receive_each(&mut receiver, &values, &indices);
        assert_eq!(answers, Vec::from_iter(indices.map(Ok).into_iter().zip(highest)));
    }
}

#[test]
fn a_read_index_never_moves_h_back() {
    let values = set_up_rccm2(1);
    let mut receiver = receiver(&values, 3, Some(9));
    let start = 3 << 16 | 9;
    let far = 900 << 16;
    let (last, beyond) = (far - 1_023, far - 1_024);
    let indices = [far, start, last, beyond, last, far, far + 1];
    let expected = [
        (Ok(far), far),
        (Err(Refusal::Old), far),
        (Ok(last), far),
        (Err(Refusal::Old), far),
        (Err(Refusal::Repeat), far),
        (Err(Refusal::Repeat), far),
        (Ok(far + 1), far + 1),
    ];
    let expected = expected.map(|(answer, highest)| (answer, Some(highest)));
    assert_eq!(receive_each(&mut receiver, &values, &indices), expected);
}

/// A carried count is covered by the MAC, and a longer MAC is checked whole. A packet with a
/// wrong count is judged by the index that it then has, and changes nothing.
#[test]
fn every_bit_of_a_tag_counts() {
    let values = set_up_rccm2(2);
    let session = Session::set_up(&values).unwrap();
    for index in [(7 << 16) + 100, (7 << 16) + 101] {
        let packet = session.made_media(&rtp(index as u16, 9), index).unwrap();
        let mut receiver = receiver(&values, 7, Some(90));
        let untouched = receiver.clone();
        for bit in 0..14 * 8 {
            let (mut changed, tag) = (packet.clone(), packet.len() - 14);
            changed[tag + bit / 8] ^= 0x80 >> (bit % 8);
            let count = u32::from_be_bytes(changed[tag..tag + 4].try_into().unwrap());
            let is_behind = index % 2 == 0 && count < 7;
            let refusal = if is_behind { Refusal::Old } else { Refusal::Forged };
            let mut out = [0xa5; 100];
            assert_eq!(receiver.receive_media(&changed, &mut out), Err(refusal), "bit {bit}");
            assert_eq!((&receiver, out), (&untouched, [0xa5; 100]), "bit {bit}");
        }
        let opened = receiver.receive_media(&packet, &mut [0; 100]);
        assert_eq!(opened, Ok(Finished { index, length: 21 }));
    }
}

#[test]
fn control_is_the_same_under_each_transform() {
    let (plain, read) = (set_up(), set_up_rccm2(1));
    for index in [0, 1, 65_536] {
        let made = |values| Session::set_up(values).unwrap().made_control(&rtcp(16), index, true);
        assert_eq!(made(&plain), made(&read));
        let packet = made(&read).unwrap();
        let opened = receiver(&read, 0, None).receive_control(&packet, &mut [0; 24]);
        assert_eq!(opened, Ok(Finished { index, length: 24 }));
    }
    let (mut one, mut other) = ([0; 38], [0; 38]);
    let sent = sender(&plain).send_control(&rtcp(16), &mut one);
    assert_eq!(sent, sender(&read).send_control(&rtcp(16), &mut other));
    assert_eq!(one, other);
}

#[test]
fn the_receiver_follows_the_e_bit() {
    for (cipher, e_bit) in [(0, false), (0, true), (1, false), (1, true)] {
        let values = SetUp { cipher, mki: vec![9, 8], ..set_up() };
        let session = Session::set_up(&values).unwrap();
        let packet = session.made_control(&rtcp(16), 70, e_bit).unwrap();
        assert_eq!(packet[8..24] == [0xab; 16], cipher == 0 || !e_bit);
        let mut out = [0; 24];
        let answer = receiver(&values, 0, None).receive_control(&packet, &mut out);
        assert_eq!(answer, Ok(Finished { index: 70, length: 24 }));
        assert_eq!(out[..], rtcp(16));
    }
}

#[test]
fn refusals_come_in_the_order_of_the_table() {
    let values = SetUp { mki: vec![1, 2, 3], ..set_up() };
    let session = Session::set_up(&values).unwrap();
    let mut receiver = receiver(&values, 0, Some(1_500));
    // Everything is wrong with this packet; each repair brings out the next row.
    let mut packet = session.made_media(&rtp(400, 2100), 400).unwrap();
    let last = packet.len() - 1;
    packet[last] ^= 1;
    packet[last - 12] ^= 1;
    packet[0] ^= 0x80;
    packet[8] ^= 1;
    let mut answer = |packet: &[u8], room| receiver.receive_media(packet, &mut vec![0; room]);
    assert_eq!(answer(&packet, 0), Err(Refusal::Long));
    packet.drain(100..200);
    assert_eq!(answer(&packet, 0), Err(Refusal::Shape));
    packet[0] ^= 0x80;
    assert_eq!(answer(&packet, 0), Err(Refusal::Stream));
    packet[8] ^= 1;
    assert_eq!(answer(&packet, packet.len() - 14), Err(Refusal::Room));
    assert_eq!(answer(&packet, packet.len() - 13), Err(Refusal::Key));
    packet[last - 100 - 12] ^= 1;
    assert_eq!(answer(&packet, 2100), Err(Refusal::Old));
    packet[2..4].copy_from_slice(&500u16.to_be_bytes());
    assert_eq!(answer(&packet, 2100), Err(Refusal::Forged));
}

#[test]
fn any_bytes_get_an_answer() {
    let mut random = reference::random::Random::new(3);
    let mut sender = sender(&set_up());
    let mut receiver = receiver(&set_up(), 0, None);
    for length in 0..300 {
        let mut packet = random.bytes(length);
        for first in [0x80, 0x8f, 0x90, 0x9f, 0xbf, 0x00] {
            packet.iter_mut().take(1).for_each(|byte| *byte = first);
            let mut out = vec![0; random.length(0..=300)];
            let _ = sender.send_media(&packet, &mut out);
            let _ = sender.send_control(&packet, &mut out);
            let _ = receiver.receive_media(&packet, &mut out);
            let _ = receiver.receive_control(&packet, &mut out);
        }
    }
}
