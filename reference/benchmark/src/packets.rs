//! The packets that are timed, and what each must become.

use crate::implementations::{Answer, Implementation, Link, PLAIN, REFERENCE, SSRC, TAG_LENGTH};
use reference::random::Random;

/// Packets of a round. A receiver is set up anew for each round, for reference/ keeps every index
/// that it accepted.
pub const PACKETS: usize = 1000;
/// Bytes of the buffer that every call writes to.
pub const ROOM: usize = 2_100;
/// Number of the first packet.
const FIRST_NUMBER: u16 = 1_000;

/// The two directions.
#[derive(Clone, Copy, PartialEq, Eq)]
pub enum Call {
    /// RTP to SRTP.
    Protect,
    /// SRTP to RTP.
    Open,
}

impl Call {
    /// Both.
    pub const ALL: [Call; 2] = [Call::Protect, Call::Open];

    /// Its name in the tables.
    pub fn name(self) -> &'static str {
        match self {
            Call::Protect => "protect",
            Call::Open => "open",
        }
    }

    /// Makes the call.
    pub fn make(self, link: &mut dyn Link, packet: &[u8], out: &mut [u8]) -> Answer {
        match self {
            Call::Protect => link.protect(packet, out),
            Call::Open => link.open(packet, out),
        }
    }
}

/// A plain packet: a header of 12 bytes with the number, then random bytes.
pub fn rtp(number: u16, length: usize, random: &mut Random) -> Vec<u8> {
    let mut packet = vec![0x80, 96];
    packet.extend(number.to_be_bytes());
    packet.extend(random.bytes(4));
    packet.extend(SSRC.to_be_bytes());
    packet.extend(random.bytes(length - packet.len()));
    packet
}

/// Packets of one length in the order of their numbers, plain and protected.
pub struct Traffic {
    plain: Vec<Vec<u8>>,
    protected: Vec<Vec<u8>>,
}

impl Traffic {
    /// Packets of this length, protected by reference/.
    pub fn new(length: usize) -> Traffic {
        let mut random = Random::new(length as u64);
        let numbers = FIRST_NUMBER..FIRST_NUMBER + PACKETS as u16;
        let plain: Vec<_> = numbers.map(|number| rtp(number, length, &mut random)).collect();
        let mut link = (REFERENCE.set_up)(&PLAIN);
        let protected = plain.iter().map(|packet| {
            let mut out = vec![0; length + TAG_LENGTH];
            assert_eq!(link.protect(packet, &mut out), Ok(out.len()));
            out
        });
        Traffic { protected: protected.collect(), plain }
    }

    /// What the call is given, packet by packet, and what it must give.
    pub fn of(&self, call: Call) -> (&[Vec<u8>], &[Vec<u8>]) {
        match call {
            Call::Protect => (&self.plain, &self.protected),
            Call::Open => (&self.protected, &self.plain),
        }
    }

    /// Stops unless the implementation's call gives the right bytes for every packet.
    pub fn check(&self, call: Call, implementation: &Implementation) {
        let mut link = (implementation.set_up)(&PLAIN);
        let (given, wanted) = self.of(call);
        for (packet, wanted) in given.iter().zip(wanted) {
            let mut out = [0; ROOM];
            let answer = call.make(&mut *link, packet, &mut out);
            let is_right = answer == Ok(wanted.len()) && out.starts_with(wanted);
            assert!(is_right, "{}, {}: {answer:?}", implementation.name, call.name());
        }
    }
}
