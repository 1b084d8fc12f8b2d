//! The trace so far, and the contexts that its records have led to.

use crate::trace::{Answer, Call, Contexts, Record};

/// Records calls and answers them.
#[derive(Default)]
pub struct Recorder {
    trace: Vec<u8>,
    calls: usize,
    contexts: Contexts,
}

impl Recorder {
    /// How many records are calls: those that fit.
    pub fn calls(&self) -> usize {
        self.calls
    }

    /// The contexts after the records so far.
    pub fn contexts(&self) -> &Contexts {
        &self.contexts
    }

    /// The bytes of all records.
    pub fn into_trace(self) -> Vec<u8> {
        self.trace
    }

    /// Adds a record and answers it.
    pub fn record(&mut self, op: u8, body: &[u8]) -> Answer {
        let record = Record { op, body };
        record.write(&mut self.trace);
        let answer = self.contexts.answer(&record);
        self.calls += usize::from(answer.is_to_a_call());
        answer
    }

    /// Adds a call on a packet, with an outgoing buffer of `room` bytes.
    pub fn call(&mut self, call: Call, room: usize, packet: &[u8]) -> Answer {
        let mut body = u16::try_from(room).unwrap_or(u16::MAX).to_be_bytes().to_vec();
        body.extend_from_slice(packet);
        self.record(call.op(), &body)
    }
}
