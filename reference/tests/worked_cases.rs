//! The worked cases of the rules, d1 to d12 and 13 to 15, on definitions and on contexts.

mod common;

use common::{bytes, receiver, rtp, sender, set_up, set_up_rccm2};
use reference::context::Finished;
use reference::index::{self, MAX_MEDIA_INDEX};
use reference::layout::RtpHeader;
use reference::refusal::Refusal;
use reference::session::Session;
use reference::settings::SetUp;

/// What a receiver with highest index H says to a good packet of this number. The packet is made
/// at the index that the rules give, or would give modulo 2^48.
fn received(highest: u64, number: u16) -> Result<u64, Refusal> {
    let estimate = index::estimate(Some(highest), 0, number);
    let made_at = estimate.rem_euclid(i128::from(MAX_MEDIA_INDEX) + 1) as u64;
    received_at(&set_up(), highest, made_at)
}

/// What a receiver with highest index H says to the packet made at an index.
fn received_at(values: &SetUp, highest: u64, made_at: u64) -> Result<u64, Refusal> {
    let count = index::rollover_count(highest);
    let mut receiver = receiver(values, count, Some(index::number(highest)));
    let session = Session::set_up(values).unwrap();
    let packet = session.made_media(&rtp(index::number(made_at), 5), made_at).unwrap();
    receiver.receive_media(&packet, &mut [0; 100]).map(|finished| finished.index)
}

/// What a sender whose last index was this says to a number.
fn sent(last: u64, number: u16) -> Result<u64, Refusal> {
    let mut sender = sender(&set_up());
    sender.last_index = Some(last);
    sender.send_media(&rtp(number, 5), &mut [0; 100]).map(|finished| finished.index)
}

#[test]
fn d1_behind_over_a_rollover() {
    assert_eq!(index::distance(65_541, 65_530), -11);
    assert_eq!(received(65_541, 65_530), Ok(65_530));
}

#[test]
fn d2_ahead_over_a_rollover() {
    assert_eq!(index::distance(65_530, 3), 9);
    assert_eq!(received(65_530, 3), Ok(65_539));
}

#[test]
fn d3_below_zero_is_old() {
    assert_eq!(index::estimate(Some(5), 0, 65_530), -6);
    assert_eq!(received(5, 65_530), Err(Refusal::Old));
}

#[test]
fn d4_beyond_the_last_index_is_spent() {
    assert_eq!(received(MAX_MEDIA_INDEX, 0), Err(Refusal::Spent));
}

#[test]
fn d5_farthest_ahead_but_one() {
    assert_eq!(index::distance(100, 32_867), 32_767);
    assert_eq!(received(100, 32_867), Ok(32_867));
}

#[test]
fn d6_half_the_numbers_away_is_ahead() {
    assert_eq!(index::distance(40_000, 7_232), 32_768);
    assert_eq!(received(40_000, 7_232), Ok(72_768));
}

#[test]
fn d7_farthest_behind_is_old() {
    assert_eq!(index::distance(40_000, 7_233), -32_767);
    assert_eq!(received(40_000, 7_233), Err(Refusal::Old));
}

#[test]
fn d8_both_sides_of_the_window_s_end() {
    assert_eq!(index::distance(2_000, 977), -1_023);
    assert_eq!(received(2_000, 977), Ok(977));
    assert_eq!(index::distance(2_000, 976), -1_024);
    assert_eq!(received(2_000, 976), Err(Refusal::Old));
}

#[test]
fn d9_sender_s_rollover() {
    assert_eq!(index::next_sent(Some(65_535), 0), Ok(65_536));
    assert_eq!(sent(65_535, 0), Ok(65_536));
}

#[test]
fn d10_both_sides_of_the_largest_step() {
    assert_eq!(sent(10, 32_777), Ok(32_777));
    assert_eq!(sent(10, 32_778), Err(Refusal::Order));
    assert_eq!(sent(10, 10), Err(Refusal::Order));
}

#[test]
fn d12_header_with_sources_and_extension() {
    let mut packet = bytes("920f0001decafbadcafebabe");
    packet.extend([1; 8]);
    packet.extend([0xbe, 0xde, 0, 3]);
    packet.extend([2; 12]);
    assert_eq!(RtpHeader::read(&packet).map(|header| header.length), Some(36));
    packet.pop();
    assert_eq!(RtpHeader::read(&packet), None);
}

#[test]
fn case_13_the_same_packet_twice() {
    let session = Session::set_up(&set_up()).unwrap();
    let packet = session.made_media(&rtp(7, 20), 7).unwrap();
    let mut receiver = receiver(&set_up(), 0, None);
    let mut out = [0; 100];
    assert_eq!(receiver.receive_media(&packet, &mut out), Ok(Finished { index: 7, length: 32 }));
    assert_eq!(receiver.receive_media(&packet, &mut out), Err(Refusal::Repeat));
}

#[test]
fn case_14_a_forged_packet_first() {
    let session = Session::set_up(&set_up()).unwrap();
    let packet = session.made_media(&rtp(7, 20), 7).unwrap();
    let mut forged = packet.clone();
    *forged.last_mut().unwrap() ^= 1;
    let mut receiver = receiver(&set_up(), 0, None);
    let untouched = receiver.clone();
    let mut out = [0xa5; 100];
    assert_eq!(receiver.receive_media(&forged, &mut out), Err(Refusal::Forged));
    assert_eq!((&receiver, out), (&untouched, [0xa5; 100]));
    assert_eq!(receiver.receive_media(&packet, &mut out), Ok(Finished { index: 7, length: 32 }));
}

#[test]
fn case_15_a_header_alone() {
    let mut out = [0; 22];
    let finished = sender(&set_up()).send_media(&rtp(1, 0), &mut out);
    assert_eq!(finished, Ok(Finished { index: 1, length: 22 }));
}

/// Where every tag carries the rollover count, the cases above come out by the index that is read.
#[test]
fn carried_counts_are_read() {
    let last_count = MAX_MEDIA_INDEX - 65_535;
    let cases = [
        ("d1", 65_541, 65_530, true),
        ("d2", 65_530, 65_539, true),
        ("d3, for the number is ahead", 5, 65_530, true),
        ("d4, for the count is the last", MAX_MEDIA_INDEX, last_count, false),
        ("one more than d5", 100, 32_868, true),
        ("farther ahead than any estimate", 100, 32_869, true),
        ("d6, with the count behind", 40_000, 7_232, false),
        ("d6, with the count ahead", 40_000, 72_768, true),
        ("d7, with the count ahead", 40_000, 72_769, true),
        ("d8, within", 2_000, 977, true),
        ("d8, beyond", 2_000, 976, false),
        ("several rollovers ahead", 1000, 7 * 65_536, true),
        ("several rollovers behind", 7 * 65_536, 1000, false),
        ("the last index from the first", 0, MAX_MEDIA_INDEX, true),
        ("the first index from the last", MAX_MEDIA_INDEX, 0, false),
        ("the started H itself", MAX_MEDIA_INDEX, MAX_MEDIA_INDEX, true),
    ];
    for (case, highest, index, is_let_in) in cases {
        let expected = if is_let_in { Ok(index) } else { Err(Refusal::Old) };
        assert_eq!(received_at(&set_up_rccm2(1), highest, index), expected, "{case}");
    }
}

/// A sender's packets about a rollover at rate 3: the number decides which tags carry the count.
#[test]
fn numbers_that_the_rate_divides_carry_the_count() {
    let mut sender = sender(&set_up_rccm2(3));
    sender.last_index = Some(65_531);
    for (number, count) in [
        (65_532, Some(0)),
        (65_533, None),
        (65_535, Some(0)),
        (0, Some(1)),
        (2, None),
        (3, Some(1)),
        (5, None),
    ] {
        let mut out = [0; 26];
        let finished = sender.send_media(&rtp(number, 0), &mut out).unwrap();
        assert_eq!(finished.length, 26);
        let mac = Session::set_up(&set_up_rccm2(3)).unwrap();
        let mac = mac.media_mac(&out[..12], index::rollover_count(finished.index));
        let expected = match count {
            Some(count) => [&u32::to_be_bytes(count), &mac[..10]].concat(),
            None => mac[..14].to_vec(),
        };
        assert_eq!(out[12..], expected, "number {number}");
    }
}
