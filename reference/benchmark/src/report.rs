//! Figures as Markdown.

use crate::implementations;
use crate::statistics::{ratios, Spread};
use std::fs;

/// Prints the head of a table.
pub fn head(columns: &[&str]) {
    row(columns);
    row(&vec!["---"; columns.len()]);
}

/// Prints a row of a table.
pub fn row(cells: &[&str]) {
    println!("| {} |", cells.join(" | "));
}

/// The machine, and what is the same in all tables.
pub fn print_conditions() {
    let processor = processor().unwrap_or_else(|| "an unknown processor".to_string());
    println!("Measured on {processor}, release builds; {}.", implementations::libsrtp2_version());
    println!("AES, tag of 10 bytes, no MKI. All calls write to one buffer, zeroed once before the");
    println!(
        "first round and not cleared between calls. Times are medians of CPU time. A rate is the"
    );
    println!(
        "other's time over that of the proved library: above 1 the proved library is faster.\n"
    );
}

/// The processor's name, where Linux tells it.
fn processor() -> Option<String> {
    let told = fs::read_to_string("/proc/cpuinfo").ok()?;
    let line = told.lines().find(|line| line.starts_with("model name"))?;
    Some(line.split_once(": ")?.1.to_string())
}

/// The median time of one of `count` calls, in µs.
pub fn micros(times: &[f64], count: usize) -> String {
    format!("{:.2}", median_of_one(times, count) * 1e6)
}

/// The median time of one of `count` calls, in ns.
pub fn nanos(times: &[f64], count: usize) -> String {
    format!("{:.0}", median_of_one(times, count) * 1e9)
}

fn median_of_one(times: &[f64], count: usize) -> f64 {
    Spread::of(times.to_vec()).median / count as f64
}

/// The ratio of `a` to `b`, round by round: the median, the middle half of the rounds, all rounds.
pub fn ratio_and_spread(a: &[f64], b: &[f64]) -> [String; 3] {
    let spread = Spread::of(ratios(a, b));
    let range = |from, to| format!("{from:.2} to {to:.2}");
    [
        format!("{:.2}", spread.median),
        range(spread.lower, spread.upper),
        range(spread.least, spread.most),
    ]
}
