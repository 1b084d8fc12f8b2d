//! Writes a random trace to standard output.

use reference::generate::make_trace;
use reference::options::Options;
use std::io::{self, Write};
use std::process::ExitCode;

fn run() -> Result<(), String> {
    let options = Options::read(std::env::args().skip(1), &["seed", "calls"])?;
    let seed = options.get("seed")?;
    let trace = make_trace(seed, options.get("calls")?);
    eprintln!("seed {seed}");
    io::stdout().lock().write_all(&trace).map_err(|error| error.to_string())
}

fn main() -> ExitCode {
    match run() {
        Ok(()) => ExitCode::SUCCESS,
        Err(message) => {
            eprintln!("make-trace: {message}\nusage: make-trace --seed N --calls N");
            ExitCode::from(2)
        }
    }
}
