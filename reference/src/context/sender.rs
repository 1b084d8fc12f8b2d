//! The sending context.

use super::{check_plain_length, check_stream, open_session, room_for, Answer, Finished};
use crate::index::{self, MAX_MEDIA_INDEX};
use crate::layout::{self, RtpHeader};
use crate::refusal::Refusal;
use crate::session::Session;
use crate::settings::SetUp;

/// The most control packets that one context sends.
pub const MAX_CONTROL_SENT: u64 = 1 << 31;

/// A sending context. Its parts are open, so that a context can be made by hand.
#[derive(Clone, Debug, PartialEq, Eq)]
pub struct Sender {
    /// Settings and keys; none in the closed context.
    pub session: Option<Session>,
    /// The index of the last media packet sent.
    pub last_index: Option<u64>,
    /// How many control packets were sent; the next one's index.
    pub control_sent: u64,
}

impl Sender {
    /// The closed context, which refuses every call.
    pub fn closed() -> Sender {
        Sender { session: None, last_index: None, control_sent: 0 }
    }

    /// A context with nothing sent; for values off the list SETUP and the closed context.
    pub fn set_up(values: &SetUp) -> (Sender, Result<(), Refusal>) {
        let session = Session::set_up(values);
        let verdict = Refusal::Setup.unless(session.is_some());
        (Sender { session, ..Sender::closed() }, verdict)
    }

    /// Protects a media packet.
    pub fn send_media(&mut self, packet: &[u8], out: &mut [u8]) -> Answer {
        let session = self.checked_session()?;
        check_plain_length(packet.len())?;
        let header = RtpHeader::read(packet).ok_or(Refusal::Shape)?;
        check_stream(session, header.ssrc)?;
        let length = packet.len() + session.settings.media_expansion();
        let out = room_for(out, length)?;
        let index = index::next_sent(self.last_index, header.number)?;
        session.protect_media(packet, &header, index, out);
        self.last_index = Some(index);
        Ok(Finished { index, length })
    }

    /// Protects a control packet.
    pub fn send_control(&mut self, packet: &[u8], out: &mut [u8]) -> Answer {
        let session = self.checked_session()?;
        check_plain_length(packet.len())?;
        let ssrc = layout::rtcp_ssrc(packet).ok_or(Refusal::Shape)?;
        check_stream(session, ssrc)?;
        let length = packet.len() + session.settings.control_expansion();
        let out = room_for(out, length)?;
        let index = self.control_sent;
        Refusal::Spent.unless(index < MAX_CONTROL_SENT)?;
        session.protect_control(packet, index, session.sender_sets_e_bit(), out);
        self.control_sent += 1;
        Ok(Finished { index, length })
    }

    /// Row 1: the session, if the context is one that a run could have.
    fn checked_session(&self) -> Result<&Session, Refusal> {
        let session = open_session(&self.session)?;
        let marks_are_sound = self.last_index.is_none_or(|last| last <= MAX_MEDIA_INDEX)
            && self.control_sent <= MAX_CONTROL_SENT;
        Refusal::Setup.unless(marks_are_sound)?;
        Ok(session)
    }
}
