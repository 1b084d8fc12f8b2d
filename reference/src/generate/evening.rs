//! The example trace: an evening in short, the same each time.
//!
//! Text goes out while the sequence number rolls over, with reports between. Then it comes in:
//! damaged, late on both sides of the rollover, again, from elsewhere. But for what comes from
//! elsewhere, every packet received is one that the trace's own sender gave.

use super::recorder::Recorder;
use crate::session::Session;
use crate::settings::{Integrity, SetUp, Start};
use crate::trace::{receiver_body, sender_body, Call};
use std::collections::BTreeMap;

/// Room for every packet of the evening.
const ROOM: usize = 64;

/// The SSRC of the evening's stream.
const SSRC: u32 = u32::from_be_bytes(*b"hall");

/// The trace.
pub fn evening() -> Vec<u8> {
    let mut evening = Evening::default();
    evening.set_up();
    evening.send_around_the_rollover();
    evening.receive_around_the_rollover();
    evening.receive_from_elsewhere();
    evening.repeat_after_eleven_others();
    evening.fall_behind_the_window();
    evening.close_the_receiver();
    evening.recorder.into_trace()
}

/// The evening so far, with the protected packets that its sender gave.
#[derive(Default)]
struct Evening {
    recorder: Recorder,
    /// By sequence number.
    media: BTreeMap<u16, Vec<u8>>,
    /// By index.
    control: Vec<Vec<u8>>,
}

impl Evening {
    fn set_up(&mut self) {
        self.recorder.record(Call::SetUpSender.op(), &sender_body(&values()));
        self.set_up_receiver(&values());
    }

    fn send_around_the_rollover(&mut self) {
        self.send(65_532, "the sale opens at seven");
        self.send(65_533, "lot 41, from 200");
        self.send(65_534, "lot 41, two bids");
        self.send_control("lot 41 is up");
        self.send(65_535, "lot 41, bid of 240");
        self.send(0, "lot 41, bid of 260");
        self.send(1, "lot 41, fair warning");
        self.send_control("lot 41 sold.");
        self.send(2, "lot 41, sold at 260");
        // A number that was used is refused, and the next one goes out.
        self.send(2, "lot 41, sold at 250");
        self.send(3, "lot 42, from 90");
    }

    fn receive_around_the_rollover(&mut self) {
        // One damaged packet first, which must not shut out the good ones.
        let mut damaged = self.media[&65_534].clone();
        damaged[14] ^= 0x20;
        self.recorder.call(Call::ReceiveMedia, ROOM, &damaged);
        self.receive(65_534);
        self.receive(0);
        self.receive(65_535);
        self.receive_control(0);
        self.receive(2);
        self.receive(1);
        self.recorder.call(Call::ReceiveMedia, 20, &self.media[&3]);
        self.receive(3);
        self.receive_control(1);
        self.receive_control(0);
    }

    /// Another stream, another key identifier, and bytes that are no packet.
    fn receive_from_elsewhere(&mut self) {
        for set_up in [
            SetUp { ssrc: u32::from_be_bytes(*b"door"), ..values() },
            SetUp { mki: b"m".to_vec(), ..values() },
        ] {
            let packet = media(set_up.ssrc, 4, "lot 42, bid of 5");
            let made = Session::set_up(&set_up).and_then(|s| s.made_media(&packet, 65_536 + 4));
            self.recorder.call(Call::ReceiveMedia, ROOM, &made.unwrap_or_default());
        }
        self.recorder.call(Call::ReceiveMedia, ROOM, b"GET / HTTP/1.1");
    }

    fn repeat_after_eleven_others(&mut self) {
        let bids = 4..=9;
        for number in bids.clone() {
            self.send(number, &format!("lot 42, bid of {}", 60 + 10 * number));
        }
        for number in bids {
            self.receive(number);
        }
        self.receive(65_534);
    }

    /// The sender skips ahead. Of two packets that nobody has had yet, the one 1,023 behind the
    /// highest index is let in, and the one 1,024 behind is not.
    fn fall_behind_the_window(&mut self) {
        self.send(1_020, "lot 43, from 1,000");
        self.receive(1_020);
        self.receive(65_533);
        self.receive(65_532);
    }

    /// A record of no known op changes nothing; a refused set-up closes its own context alone.
    fn close_the_receiver(&mut self) {
        self.recorder.record(b'?', b"what is this?");
        self.send(1_021, "lot 43, no bids");
        self.set_up_receiver(&SetUp { master_key: b"a short key".to_vec(), ..values() });
        self.receive(1_021);
        self.send(1_022, "good night");
    }

    fn set_up_receiver(&mut self, values: &SetUp) {
        let start = Start { rollover_count: 0, last_number: None };
        self.recorder.record(Call::SetUpReceiver.op(), &receiver_body(values, start, 0));
    }

    fn send(&mut self, number: u16, text: &str) {
        let answer = self.recorder.call(Call::SendMedia, ROOM, &media(SSRC, number, text));
        self.media.extend(answer.packet().map(|packet| (number, packet.to_vec())));
    }

    fn send_control(&mut self, text: &str) {
        let answer = self.recorder.call(Call::SendControl, ROOM, &control(text));
        self.control.extend(answer.packet().map(<[u8]>::to_vec));
    }

    fn receive(&mut self, number: u16) {
        self.recorder.call(Call::ReceiveMedia, ROOM, &self.media[&number]);
    }

    fn receive_control(&mut self, index: usize) {
        self.recorder.call(Call::ReceiveControl, ROOM, &self.control[index]);
    }
}

fn values() -> SetUp {
    SetUp {
        tag_length: 10,
        cipher: 1,
        ssrc: SSRC,
        master_key: b"key of the hall!".to_vec(),
        master_salt: b"salt of a hall".to_vec(),
        mki: b"k".to_vec(),
        integrity: Integrity::HmacSha1,
    }
}

/// A media packet: version 2, payload type 98, timestamp 0.
fn media(ssrc: u32, number: u16, text: &str) -> Vec<u8> {
    let number = number.to_be_bytes();
    [&[0x80, 98], &number[..], &[0; 4], &ssrc.to_be_bytes(), text.as_bytes()].concat()
}

/// A control packet of an application (RFC 3550, 6.7): its length in words less one, its name
/// and its text.
fn control(text: &str) -> Vec<u8> {
    let words = (2 + text.len() / 4) as u16;
    let ssrc = SSRC.to_be_bytes();
    [&[0x80, 204], &words.to_be_bytes()[..], &ssrc, b"sale", text.as_bytes()].concat()
}
