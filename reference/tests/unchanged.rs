//! Streams under RFC 3711's own transform are answered as they were before there was another, but
//! for four packets that a window of 64 indices refused as OLD. In the window of 1,024, records 28
//! and 56 (68 and 64 behind H) are let in, record 42 (512 behind) is FORGED, and record 66 (66
//! behind) is REPEAT. Records count from 0.

use reference::trace::answer_trace;

#[test]
fn stored_answers_are_given_byte_for_byte() {
    let trace = include_bytes!("data/rfc3711.trace");
    let answers = include_bytes!("data/rfc3711.answers");
    assert!(answer_trace(trace) == answers);
}
