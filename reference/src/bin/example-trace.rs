//! Writes the example trace, examples/evening.trace of the repository, to standard output.

use reference::generate::evening;
use std::io::{self, Write};

fn main() -> io::Result<()> {
    io::stdout().lock().write_all(&evening())
}
