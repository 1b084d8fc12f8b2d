//! The receiving context.

use super::{check_plain_length, check_stream, open_session, room_for, Answer, Finished};
use crate::index::{self, MAX_CONTROL_INDEX, MAX_MEDIA_INDEX};
use crate::layout::{ProtectedControl, ProtectedMedia};
use crate::refusal::Refusal;
use crate::replay::ReplayList;
use crate::session::Session;
use crate::settings::{SetUp, Start};

/// A receiving context. Its parts are open, so that a context can be made by hand.
#[derive(Clone, Debug, PartialEq, Eq)]
pub struct Receiver {
    /// Settings and keys; none in the closed context.
    pub session: Option<Session>,
    /// The rollover count to go by as long as there is no H.
    pub started_count: u32,
    /// Media indices accepted.
    pub media: ReplayList,
    /// Control indices accepted.
    pub control: ReplayList,
}

impl Receiver {
    /// The closed context, which refuses every call.
    pub fn closed() -> Receiver {
        Receiver {
            session: None,
            started_count: 0,
            media: ReplayList::default(),
            control: ReplayList::default(),
        }
    }

    /// A context with nothing accepted; for values off the list SETUP and the closed context.
    pub fn set_up(values: &SetUp, start: Start) -> (Receiver, Result<(), Refusal>) {
        let Some(session) = Session::set_up(values) else {
            return (Receiver::closed(), Err(Refusal::Setup));
        };
        let highest = start.last_number.map(|number| index::join(start.rollover_count, number));
        let receiver = Receiver {
            session: Some(session),
            started_count: start.rollover_count,
            media: ReplayList::starting_at(highest),
            control: ReplayList::default(),
        };
        (receiver, Ok(()))
    }

    /// Opens a protected media packet.
    pub fn receive_media(&mut self, packet: &[u8], out: &mut [u8]) -> Answer {
        let session = self.checked_session()?;
        check_plain_length(packet.len().saturating_sub(session.settings.media_expansion()))?;
        let packet = ProtectedMedia::read(packet, &session.settings).ok_or(Refusal::Shape)?;
        check_stream(session, packet.header.ssrc)?;
        let length = packet.authenticated.len();
        let out = room_for(out, length)?;
        Refusal::Key.unless(packet.mki == session.settings.mki)?;
        let index = self.media_index(&packet)?;
        self.media.judge(index)?;
        Refusal::Forged.unless(session.verify_media(&packet, index))?;
        session.open_media(&packet, index, out);
        self.media.accept(index);
        Ok(Finished { index, length })
    }

    /// Opens a protected control packet.
    pub fn receive_control(&mut self, packet: &[u8], out: &mut [u8]) -> Answer {
        let session = self.checked_session()?;
        check_plain_length(packet.len().saturating_sub(session.settings.control_expansion()))?;
        let packet = ProtectedControl::read(packet, &session.settings).ok_or(Refusal::Shape)?;
        check_stream(session, packet.ssrc)?;
        let length = packet.rtcp.len();
        let out = room_for(out, length)?;
        Refusal::Key.unless(packet.mki == session.settings.mki)?;
        self.control.judge(packet.index)?;
        Refusal::Forged.unless(session.verify_control(&packet))?;
        session.open_control(&packet, out);
        self.control.accept(packet.index);
        Ok(Finished { index: packet.index, length })
    }

    /// The index of a media packet: read where the tag carries the rollover count, and then
    /// always between the ends; else estimated.
    pub fn media_index(&self, packet: &ProtectedMedia) -> Result<u64, Refusal> {
        match packet.carried_count {
            Some(count) => Ok(index::join(count, packet.header.number)),
            None => index::within_ends(self.estimate(packet.header.number)),
        }
    }

    /// The index of a media number by H, or by the started count where there is no H. It may lie
    /// beyond either end.
    pub fn estimate(&self, number: u16) -> i128 {
        index::estimate(self.media.highest, self.started_count, number)
    }

    /// Row 1: the session, if the context is one that a run could have.
    fn checked_session(&self) -> Result<&Session, Refusal> {
        let session = open_session(&self.session)?;
        let marks_are_sound = self.media.highest.is_none_or(|highest| highest <= MAX_MEDIA_INDEX)
            && self.control.highest.is_none_or(|highest| highest <= MAX_CONTROL_INDEX);
        Refusal::Setup.unless(marks_are_sound)?;
        Ok(session)
    }
}
