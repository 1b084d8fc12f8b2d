//! Makes random traces and whole evenings, runs a trace program on them and compares every answer
//! byte; evenings are judged as well.

use reference::compare::Report;
use reference::generate::{make_trace, set_up_sweep, whole_evening, window_sweep};
use reference::options::Options;
use reference::random::Random;
use std::path::PathBuf;
use std::process::ExitCode;

const USAGE: &str = "usage: compare --program PATH --seed N --calls N [--evenings N]";

/// Calls in one trace, about. Many short traces start and end more often than one long one.
const CALLS_IN_TRACE: u64 = 4000;

fn run() -> Result<bool, String> {
    let allowed = ["program", "seed", "calls", "evenings"];
    let options = Options::read(std::env::args().skip(1), &allowed)?;
    let program: PathBuf = options.get("program")?;
    let seed: u64 = options.get("seed")?;
    let calls: u64 = options.get("calls")?;
    let evenings: u64 = options.get_or("evenings", 0)?;
    println!("seed {seed}");
    let mut seeds = Random::new(seed);
    let mut report = Report::default();
    let cannot_run = |error| format!("{}: {error}", program.display());
    // Runs the program on a trace, and tells how many calls there were so far.
    let mut run_on = |trace: Vec<u8>| match report.compare_program(&program, &trace) {
        Ok(()) => Ok(report.coverage.calls()),
        Err(error) => Err(cannot_run(error)),
    };
    run_on(set_up_sweep(seeds.bits()))?;
    let mut done = run_on(window_sweep(seeds.bits()))?;
    // The sweeps are on top of the calls that are asked for.
    let wanted = done.saturating_add(calls);
    while done < wanted {
        done = run_on(make_trace(seeds.bits(), (wanted - done).min(CALLS_IN_TRACE) as usize))?;
    }
    // A sequence of their own: the evenings are the same however many calls there were.
    let mut seeds = Random::new(!seed);
    for _ in 0..evenings {
        report.judge_program(&program, &whole_evening(seeds.bits())).map_err(cannot_run)?;
    }
    Ok(tell(&report))
}

/// Prints the report; true if nothing failed.
fn tell(report: &Report) -> bool {
    for difference in &report.differences {
        println!("{difference}");
    }
    println!("{}\n\n{}", report.coverage, report.corners);
    if report.evenings.evenings > 0 {
        println!("\n{}", report.evenings);
    }
    let gaps = report.gaps();
    for gap in &gaps {
        println!("never met: {gap}");
    }
    let failed = report.failed + gaps.len() as u64;
    println!("{} passed, {failed} failed", report.passed);
    failed == 0
}

fn main() -> ExitCode {
    match run() {
        Ok(true) => ExitCode::SUCCESS,
        Ok(false) => ExitCode::FAILURE,
        Err(message) => {
            eprintln!("compare: {message}\n{USAGE}");
            ExitCode::from(2)
        }
    }
}
