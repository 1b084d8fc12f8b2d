//! Writes a key file, sale.key in the working directory, and a stream under it to standard output.

use reference::desk::stream::{make, Stream};
use reference::options::Options;
use std::io::{self, Write};
use std::process::ExitCode;

fn run() -> Result<(), String> {
    let allowed = ["seed", "packets", "payload", "strange", "forged", "guests"];
    let options = Options::read(std::env::args().skip(1), &allowed)?;
    let stream = Stream {
        forged: options.get_or("forged", 0)?,
        guests: options.get_or("guests", 0)?,
        packets: options.get("packets")?,
        payload: options.get("payload")?,
        strange: options.get("strange")?,
    };
    if stream.strange > 99 {
        return Err("--strange is a chance below 100".to_string());
    }
    let (key, input) = make(options.get("seed")?, stream);
    std::fs::write("sale.key", key).map_err(|error| error.to_string())?;
    io::stdout().lock().write_all(&input).map_err(|error| error.to_string())
}

fn main() -> ExitCode {
    match run() {
        Ok(()) => ExitCode::SUCCESS,
        Err(message) => {
            eprintln!("make-desk-stream: {message}");
            eprintln!(
                "usage: make-desk-stream --seed N --packets N --payload N --strange N \
                 [--forged N] [--guests N]"
            );
            ExitCode::from(2)
        }
    }
}
