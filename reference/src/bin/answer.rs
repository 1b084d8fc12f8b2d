//! Reads a trace from standard input and writes the reference's answers.

use reference::trace::answer_trace;
use std::io::{self, Read, Write};

fn main() -> io::Result<()> {
    let mut trace = Vec::new();
    io::stdin().lock().read_to_end(&mut trace)?;
    io::stdout().lock().write_all(&answer_trace(&trace))
}
