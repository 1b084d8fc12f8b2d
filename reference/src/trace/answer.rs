//! Answers as bytes.

use crate::context;
use crate::refusal::Refusal;

/// The outcome number of a call that was not refused.
pub const FINISHED: u8 = 0;
/// The outcome number of a record that doesn't fit its layout.
pub const MISFIT: u8 = 255;

/// Bytes before an answer's buffer.
const HEADER_LENGTH: usize = 14;

/// The answer to one record.
#[derive(Clone, Debug, PartialEq, Eq)]
pub struct Answer {
    /// The record's op.
    pub op: u8,
    /// 0, a refusal's number, or 255.
    pub outcome: u8,
    /// The packet's index; 0 without a packet.
    pub index: u64,
    /// The packet's length; 0 without a packet.
    pub length: u16,
    /// The whole outgoing buffer; empty for set-ups and misfits.
    pub buffer: Vec<u8>,
}

impl Answer {
    /// The answer to a record that doesn't fit.
    pub fn misfit(op: u8) -> Answer {
        Answer { op, outcome: MISFIT, index: 0, length: 0, buffer: Vec::new() }
    }

    /// The answer to a set-up.
    pub fn to_set_up(op: u8, verdict: Result<(), Refusal>) -> Answer {
        let outcome = verdict.map_or_else(Refusal::number, |()| FINISHED);
        Answer { outcome, ..Answer::misfit(op) }
    }

    /// The answer to a call with the buffer that it left.
    pub fn to_call(op: u8, answer: context::Answer, buffer: Vec<u8>) -> Answer {
        match answer {
            Err(refusal) => Answer { outcome: refusal.number(), buffer, ..Answer::misfit(op) },
            Ok(finished) => {
                let (index, length) = (finished.index, finished.length as u16);
                Answer { op, outcome: FINISHED, index, length, buffer }
            }
        }
    }

    /// Whether a call was made: whether the record had a known op and fitted.
    pub fn is_to_a_call(&self) -> bool {
        self.outcome != MISFIT
    }

    /// The finished packet, if there is one.
    pub fn packet(&self) -> Option<&[u8]> {
        let packet = self.buffer.get(..usize::from(self.length))?;
        (self.outcome == FINISHED && !packet.is_empty()).then_some(packet)
    }

    /// The answer as a trace program writes it.
    pub fn to_bytes(&self) -> Vec<u8> {
        let mut bytes = vec![self.op, self.outcome];
        bytes.extend_from_slice(&self.index.to_be_bytes());
        bytes.extend_from_slice(&self.length.to_be_bytes());
        bytes.extend_from_slice(&(self.buffer.len() as u16).to_be_bytes());
        bytes.extend_from_slice(&self.buffer);
        bytes
    }

    /// The first answer of some bytes and how many it takes; None if it is cut.
    pub fn read(bytes: &[u8]) -> Option<(Answer, usize)> {
        let header = bytes.get(..HEADER_LENGTH)?;
        let number = |field: &[u8]| field.iter().fold(0u64, |sum, b| sum << 8 | u64::from(*b));
        let end = HEADER_LENGTH + number(&header[12..14]) as usize;
        let answer = Answer {
            op: header[0],
            outcome: header[1],
            index: number(&header[2..10]),
            length: number(&header[10..12]) as u16,
            buffer: bytes.get(HEADER_LENGTH..end)?.to_vec(),
        };
        Some((answer, end))
    }
}
