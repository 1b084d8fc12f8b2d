//! Slips that implementations make. Random traces must bring each of them to light: a
//! comparison that no slip can fail would show nothing.

mod done;
mod rfc3711;
mod rfc4771;
mod window;

use done::{slipped, Done};
use reference::generate::{make_trace, window_sweep};
use reference::trace::Call::{ReceiveControl, ReceiveMedia};
use reference::trace::{Contexts, Records};

/// How many records it takes until the answers differ.
fn records_until_found(trace: &[u8], slip: impl Fn(&mut Done)) -> Option<usize> {
    let (mut right, mut wrong) = (Contexts::default(), Contexts::default());
    Records::new(trace)
        .position(|record| right.answer(&record) != slipped(&mut wrong, &record, &slip))
}

fn assert_found(trace: &[u8], name: &str, slip: impl Fn(&mut Done)) {
    let found = records_until_found(trace, slip);
    println!("{name}: {found:?}");
    assert!(found.is_some(), "{name}");
}

#[test]
fn every_slip_is_found() {
    let trace = make_trace(11, 30_000);
    for (name, slip) in rfc3711::SLIPS.iter().chain(rfc4771::SLIPS) {
        assert_found(&trace, name, slip);
    }
}

/// In media and in control, by a random trace and by the sweep.
#[test]
fn every_slip_of_a_window_is_found() {
    for trace in [make_trace(11, 30_000), window_sweep(11)] {
        for call in [ReceiveMedia, ReceiveControl] {
            for (name, row) in window::SLIPS {
                assert_found(&trace, &format!("{call}, {name}"), |d| d.keep_as(call, row));
            }
        }
    }
}

#[test]
fn no_slip_is_found_where_there_is_none() {
    assert_eq!(records_until_found(&make_trace(11, 3000), |_| {}), None);
}

#[test]
fn a_window_kept_right_as_a_row_is_the_set() {
    for trace in [make_trace(11, 30_000), window_sweep(11)] {
        for call in [ReceiveMedia, ReceiveControl] {
            let found = records_until_found(&trace, |d| d.keep_as(call, &window::RIGHT));
            assert_eq!(found, None, "{call}");
        }
    }
}
