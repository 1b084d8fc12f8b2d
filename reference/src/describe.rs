//! Records and answers in words, for a reader of a difference.

use crate::coverage::outcome_name;
use crate::layout::RtpHeader;
use crate::settings::{Cipher, Integrity, SetUp};
use crate::trace::{Answer, Call, Record, Request};

/// Bytes in hexadecimal.
pub fn hex(bytes: &[u8]) -> String {
    bytes.iter().map(|byte| format!("{byte:02x}")).collect()
}

/// What a record asks for.
pub fn record(record: &Record) -> String {
    match Request::read(record) {
        None => format!("op {}, body of {} bytes that doesn't fit", record.op, record.body.len()),
        Some(Request::SetUpSender(values)) => format!("set up sender: {}", set_up(&values)),
        Some(Request::SetUpReceiver(values, start)) => {
            let number = match start.last_number {
                Some(number) => format!("last number {number}"),
                None => "no last number".to_string(),
            };
            let count = start.rollover_count;
            format!("set up receiver: {}, rollover count {count}, {number}", set_up(&values))
        }
        Some(Request::Packet { call, room, packet }) => {
            let (size, what) = (packet.len(), look(call, packet));
            format!("{call}: packet of {size} bytes ({what}), buffer of {room}")
        }
    }
}

/// What an answer says.
pub fn answer(answer: &Answer) -> String {
    let call = match Call::from_op(answer.op) {
        Some(call) => call.to_string(),
        None => format!("op {}", answer.op),
    };
    format!(
        "{call}: {}, index {}, length {}, buffer of {}",
        outcome_name(answer.outcome),
        answer.index,
        answer.length,
        answer.buffer.len()
    )
}

fn set_up(values: &SetUp) -> String {
    let cipher = match Cipher::from_number(values.cipher) {
        Some(Cipher::Null) => "NULL".to_string(),
        Some(Cipher::AesCounterMode) => "AES".to_string(),
        None => format!("cipher {}", values.cipher),
    };
    let integrity = match values.integrity {
        Integrity::HmacSha1 => "HMAC-SHA1".to_string(),
        Integrity::Rccm2 { rate } => format!("RCCm2 of rate {rate}"),
    };
    let string = |bytes: &[u8]| format!("{} ({} bytes)", hex(bytes), bytes.len());
    format!(
        "{integrity}, tag of {}, {cipher}, SSRC {:08x}, key {}, salt {}, MKI {}",
        values.tag_length,
        values.ssrc,
        string(&values.master_key),
        string(&values.master_salt),
        string(&values.mki),
    )
}

fn look(call: Call, packet: &[u8]) -> String {
    match call {
        Call::SendMedia | Call::ReceiveMedia => match RtpHeader::read(packet) {
            None => "no readable header".to_string(),
            Some(RtpHeader { number, ssrc, length }) => {
                format!("number {number}, SSRC {ssrc:08x}, header of {length}")
            }
        },
        _ => match packet.get(4..8) {
            None => "no SSRC".to_string(),
            Some(ssrc) => format!("SSRC {}", hex(ssrc)),
        },
    }
}
