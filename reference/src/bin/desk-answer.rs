//! The sale desk's answer: opens the framed packets of standard input under the key file of the
//! working directory.

use reference::desk;
use std::fs;
use std::io::{self, Read, Write};

/// The key file's name.
const KEY_FILE: &str = "sale.key";

fn main() -> io::Result<()> {
    let key = fs::read(KEY_FILE).unwrap_or_default();
    let mut input = Vec::new();
    io::stdin().lock().read_to_end(&mut input)?;
    let mut out = io::stdout().lock();
    out.write_all(&desk::output(&key, &input))?;
    out.flush()
}
