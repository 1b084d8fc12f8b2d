//! Contexts and the six calls: two set-ups, and media and control sent and received.
//!
//! A refusal is the first row of the table that holds, in the table's order, leaving out rows
//! that don't concern the call. It changes neither context nor outgoing buffer.

mod receiver;
mod sender;

pub use receiver::Receiver;
pub use sender::Sender;

use crate::refusal::Refusal;
use crate::session::Session;
use crate::settings::MAX_PLAIN_LENGTH;

/// A finished packet: it stands at the start of the outgoing buffer.
#[derive(Clone, Copy, Debug, PartialEq, Eq)]
pub struct Finished {
    /// Its index.
    pub index: u64,
    /// Its length in bytes.
    pub length: usize,
}

/// What a call on a context answers.
pub type Answer = Result<Finished, Refusal>;

/// A context's session, unless it is closed or its settings are off the list.
fn open_session(session: &Option<Session>) -> Result<&Session, Refusal> {
    session.as_ref().filter(|session| session.settings.are_admitted()).ok_or(Refusal::Setup)
}

/// LONG.
fn check_plain_length(length: usize) -> Result<(), Refusal> {
    Refusal::Long.unless(length <= MAX_PLAIN_LENGTH)
}

/// STREAM.
fn check_stream(session: &Session, ssrc: u32) -> Result<(), Refusal> {
    Refusal::Stream.unless(ssrc == session.settings.ssrc)
}

/// The front of the outgoing buffer that the result fills, or ROOM.
fn room_for(out: &mut [u8], length: usize) -> Result<&mut [u8], Refusal> {
    out.get_mut(..length).ok_or(Refusal::Room)
}
