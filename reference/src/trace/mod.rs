//! Traces: calls as records of bytes, and their answers. Everything is big end first.
//!
//! A record is op (1 byte), length (2) and body. An answer is op (1), refusal number or 0 (1),
//! index (8), length (2), size of the outgoing buffer (2) and the whole buffer. One trace has one
//! sender and one receiver, both closed until they are set up.
//!
//! The body of a set-up ends in settings, each an id (1), a length (1) and a value. Id 1 is the
//! rate of RCCm2 (2 bytes), and its presence selects that transform.

mod answer;
mod record;
mod request;

pub use answer::{Answer, FINISHED, MISFIT};
pub use record::{Record, Records, HEADER_LENGTH};
pub use request::{receiver_body, sender_body, setting};
pub use request::{Request, MAX_BODY_LENGTH, MAX_ROOM, RATE_ID};

use crate::context::{self, Receiver, Sender};
use crate::refusal::Refusal;
use crate::replay::ReplayList;
use std::fmt;

/// What a call finds in every byte of its outgoing buffer.
pub const BUFFER_FILL: u8 = 0xa5;

/// The calls that a record can ask for; their numbers are the ops.
#[derive(Clone, Copy, Debug, PartialEq, Eq, PartialOrd, Ord)]
#[repr(u8)]
pub enum Call {
    /// Sets up the sender.
    SetUpSender = 1,
    /// Sets up the receiver.
    SetUpReceiver = 2,
    /// Protects a media packet.
    SendMedia = 3,
    /// Protects a control packet.
    SendControl = 4,
    /// Opens a media packet.
    ReceiveMedia = 5,
    /// Opens a control packet.
    ReceiveControl = 6,
}

impl Call {
    /// Every call, in the order of the ops.
    pub const ALL: [Call; 6] = [
        Call::SetUpSender,
        Call::SetUpReceiver,
        Call::SendMedia,
        Call::SendControl,
        Call::ReceiveMedia,
        Call::ReceiveControl,
    ];

    /// Its op.
    pub fn op(self) -> u8 {
        self as u8
    }

    /// The call of an op.
    pub fn from_op(op: u8) -> Option<Call> {
        Call::ALL.into_iter().find(|call| call.op() == op)
    }
}

impl fmt::Display for Call {
    fn fmt(&self, f: &mut fmt::Formatter<'_>) -> fmt::Result {
        f.pad(match self {
            Call::SetUpSender => "set up sender",
            Call::SetUpReceiver => "set up receiver",
            Call::SendMedia => "send media",
            Call::SendControl => "send control",
            Call::ReceiveMedia => "receive media",
            Call::ReceiveControl => "receive control",
        })
    }
}

/// The two contexts of a trace.
#[derive(Clone, Debug, PartialEq, Eq)]
pub struct Contexts {
    /// The sender.
    pub sender: Sender,
    /// The receiver.
    pub receiver: Receiver,
}

impl Default for Contexts {
    fn default() -> Self {
        Contexts { sender: Sender::closed(), receiver: Receiver::closed() }
    }
}

impl Contexts {
    /// Does what a record asks for. A record that doesn't fit changes nothing.
    pub fn answer(&mut self, record: &Record) -> Answer {
        match Request::read(record) {
            None => Answer::misfit(record.op),
            Some(Request::SetUpSender(values)) => {
                let (sender, verdict) = Sender::set_up(&values);
                self.sender = sender;
                Answer::to_set_up(record.op, verdict)
            }
            Some(Request::SetUpReceiver(values, start)) => {
                let (receiver, verdict) = Receiver::set_up(&values, start);
                self.receiver = receiver;
                Answer::to_set_up(record.op, verdict)
            }
            Some(Request::Packet { call, room, packet }) => {
                let mut buffer = vec![BUFFER_FILL; room];
                let answer = self.call(call, packet, &mut buffer);
                Answer::to_call(record.op, answer, buffer)
            }
        }
    }

    /// The replay list that the call concerns: control's for control, else media's.
    pub fn replay_list(&self, call: Call) -> &ReplayList {
        match call {
            Call::SendControl | Call::ReceiveControl => &self.receiver.control,
            _ => &self.receiver.media,
        }
    }

    fn call(&mut self, call: Call, packet: &[u8], out: &mut [u8]) -> context::Answer {
        match call {
            Call::SendMedia => self.sender.send_media(packet, out),
            Call::SendControl => self.sender.send_control(packet, out),
            Call::ReceiveMedia => self.receiver.receive_media(packet, out),
            Call::ReceiveControl => self.receiver.receive_control(packet, out),
            Call::SetUpSender | Call::SetUpReceiver => Err(Refusal::Setup),
        }
    }
}

/// The answers to a whole trace.
pub fn answer_trace(trace: &[u8]) -> Vec<u8> {
    let mut contexts = Contexts::default();
    Records::new(trace).flat_map(|record| contexts.answer(&record).to_bytes()).collect()
}
