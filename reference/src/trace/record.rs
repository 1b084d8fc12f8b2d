//! Records: op, length, body.

/// Bytes before a record's body.
pub const HEADER_LENGTH: usize = 3;

/// One record, whatever its op and body.
#[derive(Clone, Copy, Debug, PartialEq, Eq)]
pub struct Record<'a> {
    /// The op.
    pub op: u8,
    /// The body.
    pub body: &'a [u8],
}

impl Record<'_> {
    /// Appends the record to a trace. A body that no length can tell is cut to the longest.
    pub fn write(&self, trace: &mut Vec<u8>) {
        let length = u16::try_from(self.body.len()).unwrap_or(u16::MAX);
        trace.push(self.op);
        trace.extend_from_slice(&length.to_be_bytes());
        trace.extend_from_slice(&self.body[..usize::from(length)]);
    }
}

/// The records of a trace in order. A cut final record ends them.
#[derive(Clone, Debug)]
pub struct Records<'a> {
    rest: &'a [u8],
}

impl<'a> Records<'a> {
    /// The records of these bytes.
    pub fn new(trace: &'a [u8]) -> Records<'a> {
        Records { rest: trace }
    }
}

impl<'a> Iterator for Records<'a> {
    type Item = Record<'a>;

    fn next(&mut self) -> Option<Record<'a>> {
        let header = self.rest.get(..HEADER_LENGTH)?;
        let end = HEADER_LENGTH + usize::from(u16::from_be_bytes([header[1], header[2]]));
        let body = self.rest.get(HEADER_LENGTH..end)?;
        self.rest = &self.rest[end..];
        Some(Record { op: header[0], body })
    }
}
