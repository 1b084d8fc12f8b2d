//! The second implementation, reference/: ordinary Rust that is written to be read.

use super::{Answer, Link, Settings, MASTER_KEY, MASTER_SALT, SSRC};
use reference::context::{Receiver, Sender};
use reference::settings::{Integrity, SetUp};

struct Second {
    sender: Sender,
    receiver: Receiver,
}

/// A link under the settings.
pub fn set_up(settings: &Settings) -> Box<dyn Link> {
    let values = SetUp {
        tag_length: settings.tag_length as u8,
        cipher: 1,
        ssrc: SSRC,
        master_key: MASTER_KEY.to_vec(),
        master_salt: MASTER_SALT.to_vec(),
        mki: settings.mki.to_vec(),
        integrity: Integrity::HmacSha1,
    };
    let (sender, _) = Sender::set_up(&values);
    let (receiver, _) = Receiver::set_up(&values, settings.start);
    Box::new(Second { sender, receiver })
}

impl Link for Second {
    fn protect(&mut self, packet: &[u8], out: &mut [u8]) -> Answer {
        self.sender.send_media(packet, out).map(|finished| finished.length)
    }

    fn open(&mut self, packet: &[u8], out: &mut [u8]) -> Answer {
        self.receiver.receive_media(packet, out).map(|finished| finished.length)
    }
}
