//! Whether the property holds of a program's answers to an evening's records.

use super::corners::Seen;
use super::runs::{Delivery, Received, Runs};
use super::tally::Tally;
use super::Evening;
use crate::describe;
use crate::refusal::Refusal;
use crate::trace::{Answer, Call, BUFFER_FILL, FINISHED};
use std::collections::BTreeMap;

/// What the answers to one evening have shown.
#[derive(Clone, Debug, Default)]
pub struct Verdict {
    /// What the evening doesn't keep to: it is no evening, whatever the answers are.
    pub broken: Vec<String>,
    /// Answers that the property forbids.
    pub faults: Vec<String>,
    /// The rest, counted.
    pub tally: Tally,
}

impl Verdict {
    /// Whether the property was shown.
    pub fn holds(&self) -> bool {
        self.broken.is_empty() && self.faults.is_empty()
    }
}

/// Judges a program by its answers alone.
pub fn judge(evening: &Evening, answers: &[u8]) -> Verdict {
    let mut verdict = Verdict::default();
    let runs = match Runs::read(evening) {
        Ok(runs) => runs,
        Err(broken) => return Verdict { broken: vec![broken], ..verdict },
    };
    verdict.broken = runs.broken_hypotheses();
    let answers = read_answers(answers);
    if answers.len() != evening.roles.len() {
        let (given, wanted) = (answers.len(), evening.roles.len());
        verdict.faults.push(format!("{given} answers to {wanted} records"));
        return verdict;
    }
    let given = given_packets(&runs, &answers);
    let indices: BTreeMap<_, _> =
        given.iter().map(|(place, packet)| (*packet, answers[*place].index)).collect();
    verdict.tally.evenings = 1;
    verdict.tally.sent = given.len() as u64;
    for received in &runs.received {
        let answer = &answers[received.place];
        let index = indices.get(received.packet).copied();
        verdict.tally.delivered += u64::from(received.delivery.is_some());
        match fault(received, answer, &given) {
            None => verdict.tally.count(&Seen { runs: &runs, received, index }),
            Some(fault) => verdict.faults.push(told(received, answer, fault)),
        }
    }
    verdict.faults.extend(wrong_list(&runs, &answers));
    verdict
}

/// Whole answers, as many as there are.
fn read_answers(bytes: &[u8]) -> Vec<Answer> {
    let mut rest = bytes;
    let next = || {
        let (answer, length) = Answer::read(rest)?;
        rest = &rest[length..];
        Some(answer)
    };
    std::iter::from_fn(next).collect()
}

/// The packets that the program itself gave for its sends, by the place of the record. One at
/// another index than the evening's is none.
fn given_packets<'a>(runs: &Runs, answers: &'a [Answer]) -> BTreeMap<usize, &'a [u8]> {
    let given = |(place, index): (usize, u64)| {
        let answer = &answers[place];
        let is_sent = answer.op == Call::SendMedia.op() && answer.index == index;
        Some((place, answer.packet().filter(|_| is_sent)?))
    };
    runs.sent.iter().map(|(place, sent)| (*place, sent.index)).filter_map(given).collect()
}

/// What is wrong with the answer to a call that receives media.
fn fault(
    received: &Received,
    answer: &Answer,
    given: &BTreeMap<usize, &[u8]>,
) -> Option<&'static str> {
    let refusal = Refusal::from_number(answer.outcome);
    if answer.op != Call::ReceiveMedia.op() {
        return Some("an answer to another call");
    }
    match &received.delivery {
        None => refusal.is_none().then_some("a strange string is not refused"),
        Some(delivery) if given.get(&delivery.sent_at) != Some(&received.packet) => {
            Some("a delivery of other bytes than the program gave")
        }
        Some(delivery) if delivery.is_first => {
            (!lets_in(received, delivery, answer)).then_some("a first delivery is not let in")
        }
        Some(_) => (refusal != Some(Refusal::Repeat)).then_some("a repeat is not REPEAT"),
    }
}

/// Whether the answer is the delivery's index and packet, and the buffer's bytes behind the packet
/// are as they were.
fn lets_in(received: &Received, delivery: &Delivery, answer: &Answer) -> bool {
    let plain = delivery.sent.plain;
    let behind = received.room.saturating_sub(plain.len());
    answer.outcome == FINISHED
        && answer.index == delivery.sent.index
        && usize::from(answer.length) == plain.len()
        && answer.buffer.len() == plain.len() + behind
        && answer.buffer.starts_with(plain)
        && answer.buffer[plain.len()..].iter().all(|byte| *byte == BUFFER_FILL)
}

/// The list of the media indices let in, if it is not that of those delivered, each where it comes
/// first.
fn wrong_list(runs: &Runs, answers: &[Answer]) -> Option<String> {
    let answers = runs.received.iter().map(|received| &answers[received.place]);
    let let_in = answers.filter(|answer| answer.outcome == FINISHED).map(|answer| answer.index);
    let deliveries = runs.received.iter().filter_map(|received| received.delivery);
    let delivered = deliveries.filter(|d| d.is_first).map(|delivery| delivery.sent.index);
    let (let_in, delivered): (Vec<u64>, Vec<u64>) = (let_in.collect(), delivered.collect());
    let agree = let_in.iter().zip(&delivered).take_while(|(a, b)| a == b).count();
    (let_in != delivered).then(|| {
        let (given, wanted) = (let_in.get(agree), delivered.get(agree));
        format!("index {agree} of those let in is {given:?}, of those delivered {wanted:?}")
    })
}

/// A fault in words.
fn told(received: &Received, answer: &Answer, fault: &str) -> String {
    let Received { place, room, packet, highest, delivery } = received;
    let what = delivery.as_ref().map_or("strange".to_string(), |delivery| {
        format!("index {} of record {}", delivery.sent.index, delivery.sent_at)
    });
    [
        format!("record {place}: {fault}"),
        format!("  packet    {what}, buffer of {room}, highest delivered {highest:?}"),
        format!("            {}", describe::hex(packet)),
        format!("  given     {}", describe::answer(answer)),
        format!("            {}", describe::hex(&answer.buffer)),
    ]
    .join("\n")
}
