//! The packets that a scene has at hand.

use crate::random::Random;
use crate::trace::Call;

/// How many delivered packets are kept to be repeated.
const MEMORY: usize = 100;

/// Packets of both kinds.
#[derive(Default)]
pub struct Traffic {
    media: Packets,
    control: Packets,
}

impl Traffic {
    /// Those that the call sends or receives.
    pub fn of(&mut self, call: Call) -> &mut Packets {
        match call {
            Call::SendMedia | Call::ReceiveMedia => &mut self.media,
            _ => &mut self.control,
        }
    }
}

/// Packets of one kind: sent and not yet delivered, and delivered before.
#[derive(Default)]
pub struct Packets {
    /// Sent and not yet delivered.
    pub under_way: Vec<Vec<u8>>,
    delivered: Vec<Vec<u8>>,
}

impl Packets {
    /// The packet that arrives next: the first one sent, or a later one before it.
    pub fn take(&mut self, random: &mut Random) -> Option<Vec<u8>> {
        let last = self.under_way.len().checked_sub(1)?;
        let place = if random.percent(70) { 0 } else { random.length(0..=last) };
        Some(self.under_way.remove(place))
    }

    /// Keeps a delivered packet, in place of another where there are many.
    pub fn remember(&mut self, random: &mut Random, packet: Vec<u8>) {
        if self.delivered.len() < MEMORY {
            self.delivered.push(packet);
        } else {
            let at = random.length(0..=MEMORY - 1);
            self.delivered[at] = packet;
        }
    }

    /// A packet that was delivered before.
    pub fn again(&self, random: &mut Random) -> Option<Vec<u8>> {
        let last = self.delivered.len().checked_sub(1)?;
        Some(self.delivered[random.length(0..=last)].clone())
    }
}
