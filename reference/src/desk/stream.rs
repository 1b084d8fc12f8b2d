//! Streams to try the desk on, from a seed: two senders' packets under one key file, with strange
//! frames between them.

use super::framing::frame;
use super::{set_up, KEY_FILE_LENGTH};
use crate::context::Sender;
use crate::random::Random;
use crate::settings::MAX_PLAIN_LENGTH;

/// What a stream is to hold.
#[derive(Clone, Copy, Debug, Default)]
pub struct Stream {
    /// Forged packets before anything else.
    pub forged: usize,
    /// Good packets of the second sender behind them: the first of these fixes its SSRC.
    pub guests: usize,
    /// Good packets after that, most of them the first sender's.
    pub packets: usize,
    /// The longest payload. What makes a packet too long is cut off.
    pub payload: usize,
    /// The chance of a strange frame behind each packet, in a hundred, below 100. A quarter of it
    /// is the chance that the packet is the second sender's.
    pub strange: u64,
}

const HEADER_LENGTH: usize = 12;
const TAG_LENGTH: usize = 10;

/// The lengths at which something changes.
const LENGTHS: [usize; 12] = [0, 1, 11, 12, 21, 22, 23, 2057, 2058, 2059, 2060, 65535];

/// A key file and a stream under it.
pub fn make(seed: u64, stream: Stream) -> (Vec<u8>, Vec<u8>) {
    let mut maker = Maker::new(seed, stream.payload);
    for turn in 0..stream.forged {
        maker.forge(turn);
    }
    for _ in 0..stream.guests {
        maker.send(1, 1);
    }
    for _ in 0..stream.packets {
        let step = maker.random.weighted([(8, 1), (1, 2), (1, 40)]);
        let of = usize::from(maker.random.percent(stream.strange / 4));
        maker.send(of, step);
        while maker.random.percent(stream.strange) {
            let packet = maker.strange();
            maker.input.extend(frame(&packet));
        }
    }
    (maker.key, maker.input)
}

struct Maker {
    random: Random,
    key: Vec<u8>,
    senders: [(u32, Sender); 2],
    /// The sequence number of the last packet, whoever sent it.
    number: u16,
    max_payload: usize,
    /// Good packets, whoever sent them.
    sent: Vec<Vec<u8>>,
    input: Vec<u8>,
}

impl Maker {
    fn new(seed: u64, payload: usize) -> Maker {
        let mut random = Random::new(seed);
        let key = random.bytes(KEY_FILE_LENGTH);
        let senders = [random.bits() as u32, random.bits() as u32]
            .map(|ssrc| (ssrc, Sender::set_up(&set_up(&key, ssrc)).0));
        let number = random.bits() as u16;
        let max_payload = payload.min(MAX_PLAIN_LENGTH - HEADER_LENGTH);
        Maker { random, key, senders, number, max_payload, sent: Vec::new(), input: Vec::new() }
    }

    /// A media packet of the stream's last number.
    fn plain(&mut self, ssrc: u32) -> Vec<u8> {
        let most = self.max_payload;
        let length = self.random.length_among([(1, 0..=0), (4, 0..=most), (1, most..=most)]);
        let payload = self.random.bytes(length);
        let number = self.number.to_be_bytes();
        [&[0x80, 96], &number[..], &[0; 4], &ssrc.to_be_bytes(), &payload].concat()
    }

    /// A good packet of a sender, so many numbers on. One that the sender itself refuses, for a
    /// jump of half of all numbers, is left out.
    fn send(&mut self, of: usize, step: u16) {
        self.number = self.number.wrapping_add(step);
        let plain = self.plain(self.senders[of].0);
        if let Some(packet) = protect(&mut self.senders[of].1, &plain) {
            self.input.extend(frame(&packet));
            self.sent.push(packet);
        }
    }

    /// A forged packet: in turn one of another SSRC with a damaged tag, one of the first sender's
    /// SSRC under another key, and one of another SSRC that is given the first sender's.
    fn forge(&mut self, turn: usize) {
        let first = self.senders[0].0;
        let ssrc = if turn % 3 == 1 { first } else { self.random.bits() as u32 };
        let mut key = self.key.clone();
        key[0] ^= u8::from(turn % 3 == 1);
        let plain = self.plain(ssrc);
        let (mut sender, _) = Sender::set_up(&set_up(&key, ssrc));
        let mut packet = protect(&mut sender, &plain).expect("a new sender takes any number");
        match turn % 3 {
            0 => packet[plain.len()] ^= 1,
            1 => {}
            _ => packet[8..HEADER_LENGTH].copy_from_slice(&first.to_be_bytes()),
        }
        self.input.extend(frame(&packet));
    }

    /// A packet again, a damaged one, frames within a frame, or anything.
    fn strange(&mut self) -> Vec<u8> {
        let random = &mut self.random;
        let mut packet = self.sent[random.length(0..=self.sent.len() - 1)].clone();
        match random.within(0..=3) {
            0 => packet,
            1 => {
                let at = random.length(0..=packet.len() - 1);
                packet[at] ^= 1 << random.within(0..=7);
                packet
            }
            2 => {
                let length = random.pick(LENGTHS);
                frame(&packet).iter().copied().cycle().take(length).collect()
            }
            _ => {
                let length = random.pick(LENGTHS);
                random.bytes(length)
            }
        }
    }
}

/// The protected packet, unless the sender refuses the plain one.
fn protect(sender: &mut Sender, plain: &[u8]) -> Option<Vec<u8>> {
    let mut out = [0; MAX_PLAIN_LENGTH + TAG_LENGTH];
    let finished = sender.send_media(plain, &mut out).ok()?;
    Some(out[..finished.length].to_vec())
}
