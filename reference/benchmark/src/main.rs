//! The proved library, through its boundary, timed beside ordinary Rust in several forms and,
//! where it is built in, libsrtp2. What is printed is the part of docs/BENCHMARK.md that holds the figures.
//!
//! Every contender's bytes are compared before anything is timed; where they differ, it stops.

mod agreement;
mod clock;
mod digest;
mod implementations;
mod media;
mod packets;
mod quick;
mod refusals;
mod report;
mod rounds;
mod sha1_forms;
mod statistics;

fn main() {
    agreement::check();
    report::print_conditions();
    media::print();
    refusals::print();
    digest::print();
}
