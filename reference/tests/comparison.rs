//! The comparison passes the reference and fails whatever differs from it.

use reference::compare::Report;
use reference::generate::{make_trace, set_up_sweep, window_sweep};
use reference::settings::{Integrity, SetUp};
use reference::trace::{answer_trace, Call, Contexts, Record, Records, Request};
use std::collections::BTreeSet;
use std::process::{Command, Output};

fn compare(program: &str, seed: u64, calls: u64) -> Output {
    Command::new(env!("CARGO_BIN_EXE_compare"))
        .args(["--program", program, "--seed", &seed.to_string(), "--calls", &calls.to_string()])
        .output()
        .unwrap()
}

fn last_line(output: &Output) -> String {
    let text = String::from_utf8_lossy(&output.stdout);
    text.lines().last().unwrap_or_default().to_string()
}

#[test]
fn the_reference_passes() {
    let output = compare(env!("CARGO_BIN_EXE_answer"), 7, 30_000);
    let line = last_line(&output);
    assert!(output.status.success(), "{}", String::from_utf8_lossy(&output.stdout));
    assert!(line.ends_with(" passed, 0 failed"), "{line}");
    let text = String::from_utf8_lossy(&output.stdout);
    assert!(text.starts_with("seed 7\n"));
    let number = |text: &str| text.parse::<u64>().unwrap();
    let passed = number(line.split(' ').next().unwrap());
    let calls = number(text.lines().find_map(|line| line.strip_prefix("calls: ")).unwrap());
    let swept = Records::new(&window_sweep(7)).count() as u64;
    // The sweeps are on top. The records that don't fit are compared as well, and are no calls.
    assert!((30_000 + swept..passed).contains(&calls), "{calls} calls, {passed} passed");
}

#[test]
fn records_that_do_not_fit_are_no_calls() {
    let mut trace = Vec::new();
    let media = Call::SendMedia.op();
    // A call on the closed context, a call without the size of its buffer, and an unknown op.
    for (op, body) in [(media, &[0, 9, 0x80][..]), (media, &[0]), (77, &[0, 9, 0x80])] {
        Record { op, body }.write(&mut trace);
    }
    let mut report = Report::default();
    report.compare(&trace, &answer_trace(&trace));
    assert_eq!((report.passed, report.failed, report.coverage.calls()), (3, 0, 1));
}

#[test]
fn a_wrong_answerer_fails() {
    let output = compare(env!("CARGO_BIN_EXE_wrong-answer"), 7, 10_000);
    let text = String::from_utf8_lossy(&output.stdout).into_owned();
    assert_eq!(output.status.code(), Some(1));
    assert!(!last_line(&output).ends_with(" 0 failed"));
    for part in ["receive media: packet of", "expected  receive media", "given     receive media"] {
        assert!(text.contains(part), "{text}");
    }
}

#[test]
fn a_program_that_cannot_run_fails() {
    assert_eq!(compare("./no-such-program", 7, 10).status.code(), Some(2));
}

#[test]
fn a_run_that_shows_too_little_fails() {
    let output = compare(env!("CARGO_BIN_EXE_answer"), 7, 10);
    assert_eq!(output.status.code(), Some(1));
    assert!(String::from_utf8_lossy(&output.stdout).contains("never met: "));
}

#[test]
fn a_seed_fixes_its_trace() {
    assert_eq!(make_trace(5, 500), make_trace(5, 500));
    assert_ne!(make_trace(5, 500), make_trace(6, 500));
}

/// What a trace sets up.
fn set_ups(trace: &[u8]) -> Vec<SetUp> {
    let requests = Records::new(trace).filter_map(|record| Request::read(&record));
    let values = requests.filter_map(|request| match request {
        Request::SetUpSender(values) | Request::SetUpReceiver(values, _) => Some(values),
        Request::Packet { .. } => None,
    });
    values.collect()
}

#[test]
fn the_sweep_has_every_rate_and_tag_length() {
    let values = set_ups(&set_up_sweep(3));
    let rates = (0..=300).chain([32_767, 32_768, 65_534, 65_535]);
    for integrity in rates.map(|rate| Integrity::Rccm2 { rate }) {
        assert!(values.iter().any(|v| v.integrity == integrity && v.tag_length == 14));
    }
    for length in 0..=u8::MAX {
        for is_rccm2 in [false, true] {
            let is_tried = |v: &SetUp| {
                v.tag_length == length && (v.integrity != Integrity::HmacSha1) == is_rccm2
            };
            assert!(values.iter().any(is_tried), "{length}, {is_rccm2}");
        }
    }
}

/// By how much H rises in a trace.
fn rises(trace: &[u8], call: Call) -> BTreeSet<u64> {
    let mut contexts = Contexts::default();
    let rise = |record: Record| {
        let before = contexts.replay_list(call).highest;
        contexts.answer(&record);
        contexts.replay_list(call).highest?.checked_sub(before?)
    };
    Records::new(trace).filter_map(rise).collect()
}

#[test]
fn the_window_sweep_has_every_jump() {
    for call in [Call::ReceiveMedia, Call::ReceiveControl] {
        let rises = rises(&window_sweep(3), call);
        assert!((1..=1_100).all(|rise| rises.contains(&rise)), "{call}: {rises:?}");
    }
}

#[test]
fn random_traces_have_both_transforms_and_many_rates() {
    let values = set_ups(&make_trace(3, 20_000));
    let count = |holds: fn(&SetUp) -> bool| values.iter().filter(|v| holds(v)).count();
    let rccm2 = count(|v| v.integrity != Integrity::HmacSha1);
    assert!((30..=70).contains(&(100 * rccm2 / values.len())), "{rccm2} of {}", values.len());
    for rate in [0, 1, 2, 3, 16, 256, 65_535] {
        assert!(values.iter().any(|v| v.integrity == Integrity::Rccm2 { rate }), "{rate}");
    }
    assert!(count(|v| v.integrity == Integrity::HmacSha1 && v.tag_length == 14) > 0);
    assert!(count(|v| v.integrity != Integrity::HmacSha1 && v.tag_length == 10) > 0);
}

#[test]
fn make_trace_and_answer_run_as_programs() {
    let made = Command::new(env!("CARGO_BIN_EXE_make-trace"))
        .args(["--seed", "5", "--calls", "500"])
        .output()
        .unwrap();
    assert!(made.status.success());
    assert_eq!(made.stdout, make_trace(5, 500));
}

#[test]
fn every_byte_of_the_answers_counts() {
    let trace = make_trace(9, 30);
    let answers = answer_trace(&trace);
    let failures = |answers: &[u8]| {
        let mut report = Report::default();
        report.compare(&trace, answers);
        report.failed
    };
    assert_eq!(failures(&answers), 0);
    // The first records whole, then a byte here and there.
    for place in (0..60).chain((60..answers.len()).step_by(answers.len() / 200)) {
        let mut changed = answers.clone();
        changed[place] ^= 1;
        assert!(failures(&changed) > 0, "byte {place}");
    }
    assert!(failures(&answers[..answers.len() - 1]) > 0);
    assert!(failures(&[]) > 0);
    assert!(failures(&[&answers[..], &[0]].concat()) > 0);
}
