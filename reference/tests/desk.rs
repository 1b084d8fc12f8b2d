//! The sale desk: its examples, frames of every length at which something changes, cuts, key files,
//! and which packet fixes the SSRC; and what the maker of streams makes.

mod common;

use common::{bytes, rtp, MASTER_KEY, MASTER_SALT, SSRC};
use reference::desk::framing::{frame, packets};
use reference::desk::stream::{make, Stream};
use reference::desk::{output, set_up};
use reference::session::Session;

const OTHER_SSRC: u32 = 0x0a0b_0c0d;

fn key() -> Vec<u8> {
    [bytes(MASTER_KEY), bytes(MASTER_SALT)].concat()
}

/// The plain packet of an SSRC.
fn plain(ssrc: u32, number: u16, payload: usize) -> Vec<u8> {
    let mut packet = rtp(number, payload);
    packet[8..12].copy_from_slice(&ssrc.to_be_bytes());
    packet
}

/// The protected packet of an SSRC at an index.
fn good(ssrc: u32, index: u64, payload: usize) -> Vec<u8> {
    let session = Session::set_up(&set_up(&key(), ssrc)).unwrap();
    session.made_media(&plain(ssrc, index as u16, payload), index).unwrap()
}

/// The packet with one bit of its last byte changed.
fn damaged(mut packet: Vec<u8>) -> Vec<u8> {
    *packet.last_mut().unwrap() ^= 1;
    packet
}

fn framed(packets: &[Vec<u8>]) -> Vec<u8> {
    packets.iter().flat_map(|packet| frame(packet)).collect()
}

/// What comes out for these frames is these packets.
fn assert_opens(input: &[Vec<u8>], opened: &[Vec<u8>]) {
    assert_eq!(output(&key(), &framed(input)), framed(opened));
}

#[test]
fn an_empty_frame_writes_nothing() {
    assert_eq!(output(&key(), &[0, 0]), []);
}

#[test]
fn a_packet_with_no_payload_writes_its_header() {
    let packet = good(SSRC, 7, 0);
    let input = [&[0x00, 0x16], &packet[..]].concat();
    assert_eq!(input.len(), 24);
    assert_eq!(output(&key(), &input), [&[0x00, 0x0c], &packet[..12]].concat());
}

// ---- lengths

#[test]
fn strange_frames_of_every_length_leave_the_rest_alone() {
    let (first, second) = (good(SSRC, 7, 5), good(SSRC, 8, 5));
    let within = framed(&[good(SSRC, 9, 5), good(SSRC, 10, 400)]);
    for length in [0, 1, 11, 12, 21, 22, 2057, 2058, 2059, 65535] {
        let zeros = vec![0; length];
        let frames: Vec<u8> = within.iter().copied().cycle().take(length).collect();
        let input = [&zeros, &frames, &first, &zeros, &frames, &second, &zeros].map(Vec::clone);
        assert_opens(&input, &[plain(SSRC, 7, 5), plain(SSRC, 8, 5)]);
    }
}

#[test]
fn a_packet_that_lacks_bytes_is_refused() {
    for length in [0, 1, 11, 12, 21, 22, 31] {
        let cut = good(SSRC, 7, 10)[..length].to_vec();
        assert_opens(std::slice::from_ref(&cut), &[]);
        assert_opens(&[cut, good(SSRC, 7, 10)], &[plain(SSRC, 7, 10)]);
    }
}

#[test]
fn the_longest_packet_has_2_058_bytes() {
    for payload in [2034, 2035, 2036] {
        let packet = good(SSRC, 7, payload);
        assert_eq!(packet.len(), payload + 22);
        assert_opens(&[packet], &[plain(SSRC, 7, payload)]);
    }
    let long = good(SSRC, 7, 2037);
    assert_eq!(long.len(), 2059);
    assert_opens(&[long, good(SSRC, 8, 1)], &[plain(SSRC, 8, 1)]);
}

#[test]
fn a_long_frame_is_no_packet_by_its_first_bytes() {
    let mut long = good(SSRC, 7, 2036);
    long.push(0);
    assert_opens(&[long, good(SSRC, 7, 1)], &[plain(SSRC, 7, 1)]);
}

// ---- cuts

#[test]
fn a_cut_final_frame_is_dropped_wherever_it_is_cut() {
    let long = vec![0x80; 2059];
    let frames =
        [good(SSRC, 7, 0), vec![], good(SSRC, 8, 30), long, good(SSRC, 9, 1)].map(|p| frame(&p));
    let opened = [frame(&plain(SSRC, 7, 0)), vec![], frame(&plain(SSRC, 8, 30)), vec![]];
    let opened = [&opened[..], &[frame(&plain(SSRC, 9, 1))]].concat();
    let input = frames.concat();
    for cut in 0..=input.len() {
        let mut end = 0;
        let whole = frames.iter().take_while(|frame| {
            end += frame.len();
            end <= cut
        });
        let written = opened[..whole.count()].concat();
        assert_eq!(output(&key(), &input[..cut]), written, "cut at {cut}");
    }
}

#[test]
fn a_cut_final_frame_is_dropped_though_its_bytes_are_a_good_packet() {
    let packet = good(SSRC, 7, 5);
    for more in [1, 2, 256, 3000] {
        let length = (packet.len() + more) as u16;
        let input = [&length.to_be_bytes(), &packet[..]].concat();
        assert_eq!(output(&key(), &input), [], "{more} more");
    }
}

// ---- key files

#[test]
fn a_key_file_of_another_length_writes_nothing() {
    let input = frame(&good(SSRC, 7, 5));
    let long = [key(), key()].concat();
    for length in [0, 1, 16, 29, 31, 60] {
        assert_eq!(output(&long[..length], &input), [], "{length} bytes");
    }
    assert_eq!(output(&long[..30], &input), frame(&plain(SSRC, 7, 5)));
    assert_eq!(output(&long[1..31], &input), []);
}

// ---- which packet fixes the SSRC

#[test]
fn the_first_packet_let_in_fixes_the_ssrc() {
    let input = [good(SSRC, 7, 5), good(OTHER_SSRC, 8, 5), good(SSRC, 9, 5)];
    assert_opens(&input, &[plain(SSRC, 7, 5), plain(SSRC, 9, 5)]);
    let input =
        [good(OTHER_SSRC, 8, 5), good(SSRC, 7, 5), good(SSRC, 9, 5), good(OTHER_SSRC, 9, 5)];
    assert_opens(&input, &[plain(OTHER_SSRC, 8, 5), plain(OTHER_SSRC, 9, 5)]);
}

#[test]
fn a_refused_packet_fixes_nothing() {
    let forged = damaged(good(OTHER_SSRC, 8, 5));
    let short = good(OTHER_SSRC, 8, 5)[..21].to_vec();
    let mut renamed = good(SSRC, 6, 5);
    renamed[8..12].copy_from_slice(&OTHER_SSRC.to_be_bytes());
    for refused in [forged, short, renamed, vec![0x80; 12], vec![]] {
        let first = [refused.clone(), refused, good(SSRC, 7, 5), good(OTHER_SSRC, 9, 5)];
        assert_opens(&first, &[plain(SSRC, 7, 5)]);
    }
}

#[test]
fn a_forged_packet_moves_no_receiver() {
    let input = [damaged(good(SSRC, 40_000, 5)), good(SSRC, 7, 5), damaged(good(SSRC, 30_000, 5))];
    let input = [&input[..], &[good(SSRC, 8, 5)]].concat();
    assert_opens(&input, &[plain(SSRC, 7, 5), plain(SSRC, 8, 5)]);
}

// ---- what the receiver remembers

#[test]
fn a_packet_is_let_in_once() {
    let [seven, eight, nine] = [7, 8, 9].map(|index| good(SSRC, index, 5));
    let input = [&seven, &seven, &nine, &eight, &nine, &eight, &seven].map(Vec::clone);
    assert_opens(&input, &[7, 9, 8].map(|number| plain(SSRC, number, 5)));
}

#[test]
fn a_stream_goes_on_over_the_rollover() {
    let indices = [65_534, 65_536, 65_535, 65_537, 65_536 + 32_768, 131_071, 131_072];
    let opened = indices.map(|index| plain(SSRC, index as u16, 5));
    assert_opens(&indices.map(|index| good(SSRC, index, 5)), &opened);
}

#[test]
fn the_count_starts_at_0() {
    assert_opens(&[good(SSRC, 65_536 + 7, 5)], &[]);
    assert_opens(&[good(SSRC, 65_536 + 7, 5), good(SSRC, 65_535, 5)], &[plain(SSRC, 65_535, 5)]);
}

// ---- made streams

/// The SSRC of a packet, whether protected or plain.
fn ssrc(packet: &[u8]) -> &[u8] {
    &packet[8..12]
}

#[test]
fn a_made_stream_without_strange_frames_is_opened_whole() {
    let (key, input) = make(1, Stream { packets: 300, payload: 2036, ..Stream::default() });
    let written = output(&key, &input);
    assert_eq!(packets(&written).count(), 300);
    for (protected, plain) in packets(&input).zip(packets(&written)) {
        assert_eq!((protected.len(), &protected[..12]), (plain.len() + 10, &plain[..12]));
    }
}

#[test]
fn forged_packets_come_first_and_are_refused() {
    let usual = Stream { packets: 20, payload: 60, strange: 50, ..Stream::default() };
    for seed in 0..50 {
        let (key, input) = make(seed, Stream { forged: 3, ..usual });
        let first: Vec<&[u8]> = packets(&input).take(4).collect();
        let front: usize = first[..3].iter().map(|packet| packet.len() + 2).sum();
        assert_ne!(ssrc(first[0]), ssrc(first[3]), "seed {seed}");
        assert_eq!(output(&key, &input[..front]), [], "seed {seed}");
        let written = output(&key, &input);
        assert_eq!(written, output(&key, &input[front..]), "seed {seed}");
        assert_eq!(packets(&written).next().map(ssrc), Some(ssrc(first[3])), "seed {seed}");
    }
}

#[test]
fn a_guest_that_comes_first_keeps_the_others_out() {
    let stream = Stream { guests: 2, packets: 100, payload: 60, strange: 40, ..Stream::default() };
    for (seed, forged) in (0..50).zip([0, 3].into_iter().cycle()) {
        let (key, input) = make(seed, Stream { forged, ..stream });
        let guest = packets(&input).nth(forged).map(ssrc).unwrap();
        let written = output(&key, &input);
        assert!(packets(&written).count() >= 2, "seed {seed}");
        assert!(packets(&written).all(|packet| ssrc(packet) == guest), "seed {seed}");
        let others = packets(&input).filter(|packet| packet.len() >= 22 && ssrc(packet) != guest);
        assert!(others.count() > 50, "seed {seed}");
    }
}
