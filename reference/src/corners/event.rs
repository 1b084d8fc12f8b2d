//! What a corner looks at.

use crate::index;
use crate::layout::{ProtectedControl, ProtectedMedia, RtpHeader};
use crate::refusal::Refusal::{self, Long, Room};
use crate::session::Session;
use crate::settings::{Cipher, Integrity};
use crate::trace::Call::{self, ReceiveControl, ReceiveMedia, SendControl, SendMedia};
use crate::trace::{Answer, Contexts, FINISHED};

/// A corner: its name, and whether an event is in it.
pub type Corner = (&'static str, fn(&Event) -> bool);

/// A call on a packet.
pub struct Event<'a> {
    pub call: Call,
    pub room: usize,
    pub packet: &'a [u8],
    pub answer: &'a Answer,
    /// The contexts before the call.
    pub before: &'a Contexts,
}

impl Event<'_> {
    pub fn finished(&self, call: Call) -> bool {
        self.call == call && self.answer.outcome == FINISHED
    }

    pub fn refused(&self, call: Call, refusal: Refusal) -> bool {
        self.call == call && self.answer.outcome == refusal.number()
    }

    pub fn number(&self) -> Option<u16> {
        RtpHeader::read(self.packet).map(|header| header.number)
    }

    /// The step from the sender's last number.
    pub fn step(&self) -> Option<u16> {
        let last = self.before.sender.last_index?;
        Some(self.number()?.wrapping_sub(index::number(last)))
    }

    /// The session of the context that is called.
    pub fn session(&self) -> Option<&Session> {
        let Contexts { sender, receiver } = self.before;
        let session = if self.is_sent() { &sender.session } else { &receiver.session };
        session.as_ref()
    }

    fn is_sent(&self) -> bool {
        matches!(self.call, SendMedia | SendControl)
    }

    /// Whether the packet is, or would be, under RCCm2.
    pub fn is_rccm2(&self) -> bool {
        self.session().is_some_and(|session| session.settings.integrity != Integrity::HmacSha1)
    }

    /// The parts of a received media packet.
    pub fn media(&self) -> Option<ProtectedMedia<'_>> {
        ProtectedMedia::read(self.packet, &self.session()?.settings)
    }

    pub fn highest(&self) -> Option<u64> {
        self.before.receiver.media.highest
    }

    /// The index of a received media packet that doesn't carry its rollover count.
    pub fn estimate(&self) -> Option<i128> {
        let parts = self.media().filter(|parts| parts.carried_count.is_none())?;
        Some(self.before.receiver.estimate(parts.header.number))
    }

    /// The distance of such an index from the receiver's highest.
    pub fn estimated_distance(&self) -> Option<i128> {
        Some(self.estimate()? - i128::from(self.highest()?))
    }

    pub fn is_late_over_a_rollover(&self) -> bool {
        let highest = self.highest().unwrap_or(self.answer.index);
        index::rollover_count(highest) > index::rollover_count(self.answer.index)
    }

    /// The parts of a received control packet.
    fn control(&self) -> Option<ProtectedControl<'_>> {
        ProtectedControl::read(self.packet, &self.session()?.settings)
    }

    /// The index of a received packet that has the layout, whatever becomes of it.
    pub fn index(&self) -> Option<u64> {
        match self.call {
            ReceiveMedia => self.before.receiver.media_index(&self.media()?).ok(),
            ReceiveControl => self.control().map(|parts| parts.index),
            _ => None,
        }
    }

    /// The distance of a received index from the highest of its kind.
    pub fn distance(&self) -> Option<i64> {
        Some(self.index()? as i64 - self.before.replay_list(self.call).highest? as i64)
    }

    /// Whether the E bit is as given under the cipher.
    pub fn has_e_bit(&self, cipher: Cipher, e_bit: bool) -> bool {
        self.session().is_some_and(|session| session.settings.cipher == cipher)
            && self.control().is_some_and(|parts| parts.is_enciphered == e_bit)
    }

    /// The length of the call's result, refused or not.
    fn result_length(&self) -> Option<usize> {
        let settings = &self.session()?.settings;
        let expansion = match self.call {
            SendMedia | ReceiveMedia => settings.media_expansion(),
            _ => settings.control_expansion(),
        };
        if self.is_sent() {
            Some(self.packet.len() + expansion)
        } else {
            self.packet.len().checked_sub(expansion)
        }
    }

    pub fn fills_room(&self, call: Call) -> bool {
        self.finished(call) && self.result_length() == Some(self.room)
    }

    pub fn lacks_one_byte(&self, call: Call) -> bool {
        self.refused(call, Room) && self.result_length() == Some(self.room + 1)
    }

    pub fn is_long_at(&self, call: Call, length: usize) -> bool {
        self.refused(call, Long) && self.result_length() == Some(length)
    }
}
