//! What a record asks for, if its body fits the op's layout.

use super::{Call, Record};
use crate::settings::{Integrity, SetUp, Start};

/// The longest body that is looked at.
pub const MAX_BODY_LENGTH: usize = 8192;
/// The largest outgoing buffer.
pub const MAX_ROOM: usize = 4096;
/// The id of the setting that selects RCCm2 and holds its rate.
pub const RATE_ID: u8 = 1;

/// A record that fits.
#[derive(Clone, Debug, PartialEq, Eq)]
pub enum Request<'a> {
    /// Set up the sender.
    SetUpSender(SetUp),
    /// Set up the receiver.
    SetUpReceiver(SetUp, Start),
    /// Send or receive a packet.
    Packet {
        /// Which of the four.
        call: Call,
        /// Size of the outgoing buffer.
        room: usize,
        /// The bytes to read.
        packet: &'a [u8],
    },
}

impl<'a> Request<'a> {
    /// Reads a record; None if the op is unknown or the body doesn't fit.
    pub fn read(record: &Record<'a>) -> Option<Request<'a>> {
        let call = Call::from_op(record.op)?;
        if record.body.len() > MAX_BODY_LENGTH {
            return None;
        }
        let mut fields = Fields { rest: record.body };
        match call {
            Call::SetUpSender => {
                let values = fields.set_up()?;
                Some(Request::SetUpSender(fields.with_settings(values)?))
            }
            Call::SetUpReceiver => {
                let values = fields.set_up()?;
                let start = fields.start()?;
                Some(Request::SetUpReceiver(fields.with_settings(values)?, start))
            }
            _ => {
                let room = usize::from(fields.u16()?);
                let fits = room <= MAX_ROOM;
                fits.then_some(Request::Packet { call, room, packet: fields.rest })
            }
        }
    }
}

/// The fields of a body, taken from its front.
struct Fields<'a> {
    rest: &'a [u8],
}

impl<'a> Fields<'a> {
    fn take(&mut self, length: usize) -> Option<&'a [u8]> {
        let (field, rest) = self.rest.split_at_checked(length)?;
        self.rest = rest;
        Some(field)
    }

    fn u8(&mut self) -> Option<u8> {
        self.take(1).map(|field| field[0])
    }

    fn u16(&mut self) -> Option<u16> {
        Some(u16::from(self.u8()?) << 8 | u16::from(self.u8()?))
    }

    fn u32(&mut self) -> Option<u32> {
        Some(u32::from(self.u16()?) << 16 | u32::from(self.u16()?))
    }

    /// A length (1) and as many bytes.
    fn string(&mut self) -> Option<Vec<u8>> {
        let length = self.u8()?;
        self.take(usize::from(length)).map(<[u8]>::to_vec)
    }

    /// The fields that every set-up has. Each setting has its default until one is read.
    fn set_up(&mut self) -> Option<SetUp> {
        Some(SetUp {
            tag_length: self.u8()?,
            cipher: self.u8()?,
            ssrc: self.u32()?,
            master_key: self.string()?,
            master_salt: self.string()?,
            mki: self.string()?,
            integrity: Integrity::HmacSha1,
        })
    }

    fn start(&mut self) -> Option<Start> {
        let rollover_count = self.u32()?;
        let is_known = match self.u8()? {
            0 => false,
            1 => true,
            _ => return None,
        };
        let number = self.u16()?;
        Some(Start { rollover_count, last_number: is_known.then_some(number) })
    }

    /// The values with the settings up to the body's end: each an id (1), a length (1) and a
    /// value, none twice.
    fn with_settings(&mut self, mut values: SetUp) -> Option<SetUp> {
        while !self.rest.is_empty() {
            let (id, value) = (self.u8()?, self.string()?);
            match (id, values.integrity, &value[..]) {
                (RATE_ID, Integrity::HmacSha1, &[high, low]) => {
                    let rate = u16::from_be_bytes([high, low]);
                    values.integrity = Integrity::Rccm2 { rate };
                }
                _ => return None,
            }
        }
        Some(values)
    }
}

/// The body of a sender's set-up.
pub fn sender_body(values: &SetUp) -> Vec<u8> {
    [set_up_fields(values), settings(values)].concat()
}

/// The body of a receiver's set-up. `unknown_number` fills the number's place where none is
/// known.
pub fn receiver_body(values: &SetUp, start: Start, unknown_number: u16) -> Vec<u8> {
    [set_up_fields(values), start_fields(start, unknown_number), settings(values)].concat()
}

/// What both bodies start with. A string that no length byte can tell is cut.
fn set_up_fields(values: &SetUp) -> Vec<u8> {
    let mut body = vec![values.tag_length, values.cipher];
    body.extend_from_slice(&values.ssrc.to_be_bytes());
    for bytes in [&values.master_key, &values.master_salt, &values.mki] {
        body.extend(string(bytes));
    }
    body
}

fn start_fields(start: Start, unknown_number: u16) -> Vec<u8> {
    let mut fields = start.rollover_count.to_be_bytes().to_vec();
    fields.push(u8::from(start.last_number.is_some()));
    fields.extend_from_slice(&start.last_number.unwrap_or(unknown_number).to_be_bytes());
    fields
}

/// What both bodies end with: nothing where all is RFC 3711's default.
fn settings(values: &SetUp) -> Vec<u8> {
    match values.integrity {
        Integrity::HmacSha1 => Vec::new(),
        Integrity::Rccm2 { rate } => setting(RATE_ID, &rate.to_be_bytes()),
    }
}

/// One setting. A value that no length byte can tell is cut.
pub fn setting(id: u8, value: &[u8]) -> Vec<u8> {
    [&[id], &string(value)[..]].concat()
}

/// A length (1) and as many bytes.
fn string(bytes: &[u8]) -> Vec<u8> {
    let length = u8::try_from(bytes.len()).unwrap_or(u8::MAX);
    [&[length], &bytes[..usize::from(length)]].concat()
}
