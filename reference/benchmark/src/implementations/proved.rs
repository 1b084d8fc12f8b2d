//! The proved library, by way of its static library and the safe types over it.

use super::{Answer, Link, Settings, MASTER_KEY, MASTER_SALT, SSRC};
use reference::refusal::Refusal;
use tindrabek::{Packet, Profile, Receiver, Sender, SetUp};

struct Proved {
    sender: Sender,
    receiver: Receiver,
}

/// A link under the settings.
pub fn set_up(settings: &Settings) -> Box<dyn Link> {
    let values = SetUp {
        ssrc: SSRC,
        key: &MASTER_KEY,
        salt: &MASTER_SALT,
        mki: settings.mki,
        profile: Profile { tag_len: settings.tag_length, ..Profile::default() },
    };
    let start = settings.start;
    let receiver = Receiver::set_up(&values, start.rollover_count, start.last_number);
    Box::new(Proved {
        sender: Sender::set_up(&values).unwrap_or_else(|_| Sender::closed()),
        receiver: receiver.unwrap_or_else(|_| Receiver::closed()),
    })
}

impl Link for Proved {
    fn protect(&mut self, packet: &[u8], out: &mut [u8]) -> Answer {
        answer_of(self.sender.send_media(packet, out))
    }

    fn open(&mut self, packet: &[u8], out: &mut [u8]) -> Answer {
        answer_of(self.receiver.receive_media(packet, out))
    }
}

/// Both number the refusals from 1 in one order.
fn answer_of(result: Result<Packet, tindrabek::Refusal>) -> Answer {
    result.map(|packet| packet.len).map_err(|refusal| Refusal::ALL[refusal as usize])
}
