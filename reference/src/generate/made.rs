//! Small packets made at an index, for the receiver of a link.

use super::plain;
use super::recorder::Recorder;
use crate::index;
use crate::random::Random;
use crate::session::Session;
use crate::trace::Call;

/// A good packet: media for a media call, else control.
pub fn small(random: &mut Random, session: &Session, call: Call, index: u64) -> Vec<u8> {
    let ssrc = session.settings.ssrc;
    let (plain, made) = match call {
        Call::ReceiveMedia => {
            let plain = plain::small_media(random, ssrc, index::number(index));
            let made = session.made_media(&plain, index);
            (plain, made)
        }
        _ => {
            let plain = plain::small_control(random, ssrc);
            let made = session.made_control(&plain, index, random.percent(50));
            (plain, made)
        }
    };
    made.unwrap_or(plain)
}

/// Asks a receiver whether an index is marked: hands it the same packet with one bit of the tag
/// wrong. OLD and REPEAT are found before the tag is looked at, and no mark is changed.
pub fn probe(
    random: &mut Random,
    recorder: &mut Recorder,
    session: &Session,
    call: Call,
    index: u64,
) {
    let mut packet = small(random, session, call, index);
    if let Some(last) = packet.last_mut() {
        *last ^= 1 << random.within(0..=7);
    }
    recorder.call(call, packet.len(), &packet);
}
