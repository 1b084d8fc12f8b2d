//! The example trace and its words, as the repository keeps them.

use reference::generate::evening;
use reference::refusal::Refusal;
use reference::trace::{answer_trace, Answer, Call, FINISHED, MISFIT};
use std::fs;
use std::path::Path;

fn stored(name: &str) -> Vec<u8> {
    let folder = Path::new(env!("CARGO_MANIFEST_DIR")).join("../examples");
    fs::read(folder.join(name)).unwrap()
}

fn answers(trace: &[u8]) -> Vec<Answer> {
    let bytes = answer_trace(trace);
    let mut rest = &bytes[..];
    std::iter::from_fn(|| {
        let (answer, length) = Answer::read(rest)?;
        rest = &rest[length..];
        Some(answer)
    })
    .collect()
}

/// What the line of an answer starts with.
fn words(answer: &Answer) -> String {
    let Answer { outcome, index, length, .. } = answer;
    let call = Call::from_op(answer.op);
    let name = call.map_or(format!("op {}", answer.op), |call| call.to_string());
    let finished = format!("{length} bytes at index {index}");
    let said = match (call, *outcome) {
        (_, MISFIT) => "not a record of the format".to_string(),
        (Some(Call::SetUpSender | Call::SetUpReceiver), FINISHED) => "ready".to_string(),
        (Some(Call::SendMedia | Call::SendControl), FINISHED) => format!("sent, {finished}"),
        (_, FINISHED) => format!("let in, {finished}"),
        (_, number) => format!("refused: {} (", Refusal::from_number(number).unwrap()),
    };
    format!("{name}: {said}")
}

#[test]
fn the_stored_trace_is_the_evening() {
    assert_eq!(stored("evening.trace"), evening());
}

#[test]
fn the_stored_words_say_what_the_reference_answers() {
    let text = String::from_utf8(stored("evening.txt")).unwrap();
    let lines: Vec<&str> = text.lines().collect();
    let answers = answers(&evening());
    let (sum, told) = lines.split_last().unwrap();
    assert_eq!(told.len(), answers.len());
    for (place, (line, answer)) in told.iter().zip(&answers).enumerate() {
        let start = format!("{} {}", place + 1, words(answer));
        let matches = if start.ends_with('(') { line.starts_with(&start) } else { **line == start };
        assert!(matches, "{line}\n{start}");
    }
    let count = |word: &str| told.iter().filter(|line| line.contains(word)).count();
    let (sent, accepted, refused) = (count(": sent,"), count(": let in,"), count(": refused:"));
    let total = answers.len();
    assert_eq!(
        *sum,
        format!("sum of {total} answers: {sent} sent, {accepted} let in, {refused} refused")
    );
}

/// LONG wants a packet of over 2,048 bytes, and SPENT a stream at its last index.
#[test]
fn the_evening_meets_every_refusal_but_two() {
    let met: Vec<u8> = answers(&evening()).iter().map(|answer| answer.outcome).collect();
    for refusal in Refusal::ALL {
        let is_left_out = matches!(refusal, Refusal::Long | Refusal::Spent);
        assert_eq!(met.contains(&refusal.number()), !is_left_out, "{refusal}");
    }
}
