//! The quick forms refuse what reference/ refuses, and write as much: shown on random packets
//! before anything is timed, for a contender that left a test out would gain by it.

use crate::implementations::{Answer, Implementation, Link, PLAIN, QUICK, REFERENCE, TAG_LENGTH};
use crate::packets::{rtp, Call, ROOM};
use reference::random::Random;
use reference::settings::MAX_PLAIN_LENGTH;

const RUNS: u64 = 3;
const CALLS: usize = 20_000;

/// Stops where an answer differs, or a byte of the buffer.
pub fn check() {
    for form in QUICK {
        (0..RUNS).for_each(|seed| run(form, &mut Random::new(seed)));
    }
}

/// Packets sent, and some of them received: late, again and damaged too.
fn run(form: Implementation, random: &mut Random) {
    let mut pair = Pair { form, links: [REFERENCE, form].map(|of| (of.set_up)(&PLAIN)) };
    let mut sent = vec![];
    let mut number = random.bits() as u16;
    for _ in 0..CALLS {
        if random.percent(40) {
            let step = random.weighted([(980, 1), (10, 0), (5, 65_535), (4, 600), (1, 20_000)]);
            let packet = plain_packet(number.wrapping_add(step), random);
            let (answer, out) = pair.make(Call::Protect, &packet, random);
            if let Ok(length) = answer {
                sent.push(out[..length].to_vec());
                number = u16::from_be_bytes([out[2], out[3]]);
            }
        } else {
            _ = pair.make(Call::Open, &received_packet(&sent, number, random), random);
        }
    }
}

/// A quick form, and links of reference/ and of it, in this order.
struct Pair {
    form: Implementation,
    links: [Box<dyn Link>; 2],
}

impl Pair {
    /// A call on both links, which must do the same: the answer, and the buffer after it.
    fn make(&mut self, call: Call, packet: &[u8], random: &mut Random) -> (Answer, Vec<u8>) {
        let needed = packet.len() + TAG_LENGTH;
        let room = if random.percent(5) { random.length(0..=needed) } else { ROOM };
        let [right, its] = self.links.each_mut().map(|link| {
            let mut out = vec![0; room];
            (call.make(&mut **link, packet, &mut out), out)
        });
        let name = self.form.name;
        assert!(its == right, "{name}, {}: {:?}, not {:?}", call.name(), its.0, right.0);
        right
    }
}

/// Mostly one of the last, or about as old as the window is long; at times one that was never sent.
fn received_packet(sent: &[Vec<u8>], number: u16, random: &mut Random) -> Vec<u8> {
    let behind = random.length_among([(60, 1..=3), (20, 1..=1_100), (20, 1_015..=1_030)]);
    match sent.get(sent.len().wrapping_sub(behind)) {
        Some(packet) if random.percent(95) => damaged(packet.clone(), random),
        _ => plain_packet(number, random),
    }
}

/// Mostly a short one, and at times a strange one.
fn plain_packet(number: u16, random: &mut Random) -> Vec<u8> {
    let longest = MAX_PLAIN_LENGTH;
    let lengths = [(90, 12..=100), (7, 12..=longest), (3, longest..=longest + TAG_LENGTH + 1)];
    let mut packet = rtp(number, random.length_among(lengths), random);
    if random.percent(10) {
        packet[0] = random.byte();
    }
    damaged(packet, random)
}

/// At times a bit is changed, or the end cut off.
fn damaged(mut packet: Vec<u8>, random: &mut Random) -> Vec<u8> {
    if !packet.is_empty() && random.percent(5) {
        let at = random.length(0..=packet.len() - 1);
        packet[at] ^= 1 << random.within(0..=7);
    }
    if random.percent(2) {
        packet.truncate(random.length(0..=40));
    }
    packet
}
