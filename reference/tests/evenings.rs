//! The whole evening: the reference's answers have the property, none of its hypotheses can be
//! spared, and slips are brought to light by judging alone.

mod common;
#[allow(dead_code)]
#[path = "slips/done.rs"]
mod done;
#[allow(dead_code)]
#[path = "slips/rfc3711.rs"]
mod rfc3711;
#[allow(dead_code)]
#[path = "slips/rfc4771.rs"]
mod rfc4771;

use common::{rtp, set_up, set_up_rccm2};
use done::{slipped, Done, Slip};
use reference::compare::Report;
use reference::evening::{judge, keeps_up, Evening, Role, Tally, Verdict};
use reference::generate::whole_evening;
use reference::index;
use reference::refusal::Refusal;
use reference::settings::{SetUp, Start};
use reference::trace::{answer_trace, receiver_body, sender_body, Answer, Call, FINISHED};
use reference::trace::{Contexts, Record, Records};
use std::cmp::Reverse;
use std::collections::BTreeMap;
use std::process::{Command, Output};

/// As many as a comparison has.
const EVENINGS: u64 = 40;

#[test]
fn the_reference_has_the_property_and_every_corner_is_met() {
    let mut tally = Tally::default();
    for seed in 1..=EVENINGS {
        let evening = whole_evening(seed);
        let verdict = judge(&evening, &answer_trace(&evening.trace));
        let told: Vec<_> = verdict.broken.iter().chain(&verdict.faults).collect();
        assert!(verdict.holds(), "seed {seed}: {told:?}");
        assert!((2000..=4000).contains(&verdict.tally.sent), "seed {seed}: {}", verdict.tally);
        // One evening alone has one set-up.
        assert!(!verdict.tally.gaps().is_empty(), "seed {seed}");
        tally.add(&verdict.tally);
    }
    assert_eq!(tally.gaps(), Vec::<String>::new(), "{tally}");
    assert_eq!((tally.evenings, tally.let_in + tally.repeated), (EVENINGS, tally.delivered));
}

#[test]
fn a_seed_fixes_its_evening() {
    assert_eq!(whole_evening(5), whole_evening(5));
    assert_ne!(whole_evening(5).trace, whole_evening(6).trace);
}

#[test]
fn keeping_up_has_exact_limits() {
    const AT: u64 = 9 << 16;
    let highest = Some(AT);
    // Estimated, carried, the highest before, the index.
    let cases = [
        (true, true, highest, AT),
        (true, true, highest, AT - 1_023),
        (false, false, highest, AT - 1_024),
        (false, false, highest, AT - 32_768),
        (false, false, highest, 0),
        (true, true, highest, AT + 32_767),
        (false, true, highest, AT + 32_768),
        (false, true, highest, AT + 32_769),
        (false, true, highest, AT + (5 << 16)),
        (true, true, Some(3), 0),
        (true, true, None, 7 << 16),
        (true, true, None, (8 << 16) - 1),
        (false, true, None, (7 << 16) - 1),
        (false, true, None, 8 << 16),
    ];
    for (estimated, carried, highest, index) in cases {
        assert_eq!(keeps_up(false, 7, highest, index), estimated, "{highest:?}, {index}");
        assert_eq!(keeps_up(true, 7, highest, index), carried, "{highest:?}, {index}");
    }
}

/// An evening by hand, and what the reference answers.
struct ByHand {
    evening: Evening,
    contexts: Contexts,
    answers: Vec<u8>,
    /// Packets sent, each with its record's place, by index.
    sent: BTreeMap<u64, (usize, Vec<u8>)>,
}

/// The payload of its packets, and a buffer that just holds one.
const PAYLOAD: usize = 9;
const ROOM: usize = 12 + PAYLOAD;

impl ByHand {
    /// Two set-ups, and a receiver that starts with a count and perhaps a number.
    fn new(sender: &SetUp, receiver: &SetUp, count: u32, number: Option<u16>) -> ByHand {
        let mut hand = ByHand {
            evening: Evening { trace: Vec::new(), roles: Vec::new() },
            contexts: Contexts::default(),
            answers: Vec::new(),
            sent: BTreeMap::new(),
        };
        let start = Start { rollover_count: count, last_number: number };
        hand.record(Role::Other, Call::SetUpSender, &sender_body(sender));
        hand.record(Role::Other, Call::SetUpReceiver, &receiver_body(receiver, start, 0));
        hand
    }

    fn record(&mut self, role: Role, call: Call, body: &[u8]) -> Answer {
        let record = Record { op: call.op(), body };
        record.write(&mut self.evening.trace);
        self.evening.roles.push(role);
        let answer = self.contexts.answer(&record);
        self.answers.extend(answer.to_bytes());
        answer
    }

    /// Sends packets at these indices, and others between where a step would be too long.
    fn send(mut self, indices: &[u64]) -> ByHand {
        for index in indices {
            while !self.sent.contains_key(index) {
                let last = self.sent.last_key_value().map(|(last, _)| *last);
                let index = last.map_or(*index, |last| (last + 32_767).min(*index));
                let body = [&[0, 99][..], &rtp(index::number(index), PAYLOAD)].concat();
                let place = self.evening.roles.len();
                let answer = self.record(Role::Send { index }, Call::SendMedia, &body);
                self.sent.insert(index, (place, answer.packet().unwrap().to_vec()));
            }
        }
        self
    }

    fn receive(mut self, role: Role, room: usize, packet: &[u8]) -> ByHand {
        let body = [&[0, room as u8], packet].concat();
        self.record(role, Call::ReceiveMedia, &body);
        self
    }

    fn deliver(self, room: usize, index: u64) -> ByHand {
        let (sent, packet) = self.sent[&index].clone();
        self.receive(Role::Delivery { sent }, room, &packet)
    }

    fn verdict(&self) -> Verdict {
        judge(&self.evening, &self.answers)
    }
}

/// Sent in order, delivered in this one, to a receiver that starts with count 0.
fn delivered(values: &SetUp, indices: &[u64]) -> ByHand {
    let mut sent = indices.to_vec();
    sent.sort();
    let hand = ByHand::new(values, values, 0, None).send(&sent);
    indices.iter().fold(hand, |hand, index| hand.deliver(ROOM, *index))
}

/// One packet, given to a receiver that starts so.
fn joined(values: &SetUp, count: u32, number: Option<u16>, index: u64) -> ByHand {
    ByHand::new(values, values, count, number).send(&[index]).deliver(ROOM, index)
}

/// Each hypothesis kept just so, and broken by one. Packets whose number is 0 modulo 3 carry their
/// count under the third set-up, and all do under the last.
fn limits() -> Vec<(&'static str, ByHand, ByHand)> {
    let (rfc3711, other) = (set_up(), SetUp { master_key: vec![7; 16], ..set_up() });
    let (rate_3, rate_1) = (set_up_rccm2(3), set_up_rccm2(1));
    let one = || ByHand::new(&rfc3711, &rfc3711, 0, None).send(&[5]);
    vec![
        (
            "behind by less than the window",
            delivered(&rfc3711, &[2_000, 977]),
            delivered(&rfc3711, &[2_000, 976]),
        ),
        (
            "carried, behind by less than the window",
            delivered(&rate_1, &[2_000, 977]),
            delivered(&rate_1, &[2_000, 976]),
        ),
        (
            "ahead by less than 32,768",
            delivered(&rfc3711, &[100, 32_867]),
            delivered(&rfc3711, &[100, 32_869]),
        ),
        (
            "under RFC 4771, ahead by less than 32,768 unless carried",
            delivered(&rate_3, &[100, 32_871]),
            delivered(&rate_3, &[100, 32_869]),
        ),
        (
            "the first has the started count",
            joined(&rfc3711, 0, None, 65_535),
            joined(&rfc3711, 1, None, 65_535),
        ),
        (
            "under RFC 4771, the first has the started count unless carried",
            joined(&rate_3, 9, None, 65_535),
            joined(&rate_3, 9, None, 65_534),
        ),
        (
            "no number is given at set-up",
            joined(&rfc3711, 0, None, 5),
            joined(&rfc3711, 0, Some(1_029), 5),
        ),
        ("there is room", one().deliver(ROOM, 5), one().deliver(ROOM - 1, 5)),
        (
            "one set-up",
            joined(&rfc3711, 0, None, 5),
            ByHand::new(&rfc3711, &other, 0, None).send(&[5]).deliver(ROOM, 5),
        ),
    ]
}

#[test]
fn each_hypothesis_is_needed() {
    for (name, kept, broken) in limits() {
        let (kept, broken) = (kept.verdict(), broken.verdict());
        assert!(kept.holds(), "{name}: {:?} {:?}", kept.broken, kept.faults);
        assert_eq!(broken.broken.len(), 1, "{name}: {:?}", broken.broken);
        assert!(!broken.faults.is_empty(), "{name}");
    }
}

#[test]
fn strange_strings_must_be_refused() {
    let hand = || ByHand::new(&set_up(), &set_up(), 0, None).send(&[5, 6]).deliver(ROOM, 5);
    let packet = hand().sent[&6].1.clone();
    let mut damaged = packet.clone();
    damaged[20] ^= 1;
    let refused = hand().receive(Role::Strange, ROOM, &damaged).deliver(ROOM, 6).verdict();
    assert!(refused.holds(), "{:?}", refused.faults);
    let accepted = hand().receive(Role::Strange, ROOM, &packet).verdict();
    assert!(accepted.broken.is_empty());
    assert_eq!(accepted.faults.len(), 2, "{:?}", accepted.faults);
}

/// A record that is not what it is said to be, or nothing at all.
#[test]
fn no_role_may_be_wrong() {
    let hand = joined(&set_up(), 0, None, 5);
    let is_broken = |change: &dyn Fn(&mut Evening)| {
        let mut evening = hand.evening.clone();
        change(&mut evening);
        !judge(&evening, &hand.answers).broken.is_empty()
    };
    assert!(!is_broken(&|_| {}));
    for (place, role) in [
        (0, Role::Strange),
        (1, Role::Send { index: 5 }),
        (2, Role::Strange),
        (2, Role::Delivery { sent: 2 }),
        (3, Role::Other),
        (3, Role::Send { index: 5 }),
        (3, Role::Delivery { sent: 1 }),
    ] {
        assert!(is_broken(&|evening| evening.roles[place] = role), "{place}, {role:?}");
    }
    assert!(is_broken(&|evening| evening.roles.truncate(3)));
    assert!(is_broken(&|evening| evening.roles.push(Role::Strange)));
    let again = sender_body(&set_up());
    assert!(is_broken(&|evening| {
        Record { op: Call::SetUpSender.op(), body: &again }.write(&mut evening.trace);
        evening.roles.push(Role::Other);
    }));
}

#[test]
fn answers_that_are_cut_or_too_many_are_faults() {
    let hand = delivered(&set_up(), &[5, 6, 5]);
    let faults = |answers: &[u8]| judge(&hand.evening, answers).faults.len();
    let whole = &hand.answers;
    assert_eq!(faults(whole), 0);
    assert_eq!(faults(&whole[..whole.len() - 1]), 1);
    assert_eq!(faults(&[]), 1);
    assert_eq!(faults(&[&whole[..], &Answer::misfit(5).to_bytes()].concat()), 1);
}

/// Slips among those that random traces bring to light.
const SHARED: [&str; 14] = [
    "H moves before the tag is checked",
    "H is set from the first packet seen",
    "the tag has H's rollover count",
    "the tag covers the MKI",
    "the window spans 1,023",
    "accepted media indices are forgotten",
    "late packets are not marked",
    "H's count stands for the carried one",
    "the carried count stands behind the MAC",
    "a read index is not marked",
    "H goes back to a read index",
    "H moves to a read index before the tag is checked",
    "a read index is no farther ahead than an estimate",
    "a receiver without H reads no other count than the started one",
];

/// Slips that break a word of the property each.
const OWN: &[Slip] = &[
    ("an estimate ahead keeps H's rollover count", |d| {
        let highest = d.before.receiver.media.highest.unwrap_or(d.answer.index);
        let rises = index::rollover_count(d.answer.index) > index::rollover_count(highest);
        if d.finished(Call::ReceiveMedia) && d.media().carried_count.is_none() && rises {
            d.refuse(Refusal::Old);
        }
    }),
    ("nothing is let in", |d| {
        if d.finished(Call::ReceiveMedia) {
            d.refuse(Refusal::Forged);
        }
    }),
    ("the index is that of the packet before", |d| {
        let highest = d.before.receiver.media.highest;
        if d.finished(Call::ReceiveMedia) {
            d.answer.index = highest.unwrap_or(d.answer.index);
        }
    }),
    ("the index is the number", |d| {
        if d.finished(Call::ReceiveMedia) {
            d.answer.index %= 1 << 16;
        }
    }),
    ("the payload stays enciphered", |d| {
        if d.finished(Call::ReceiveMedia) {
            let end = usize::from(d.answer.length);
            d.answer.buffer[..end].copy_from_slice(&d.packet[..end]);
        }
    }),
    ("one byte too many is written", |d| {
        let end = usize::from(d.answer.length);
        if d.finished(Call::ReceiveMedia) {
            d.answer.buffer[end..].iter_mut().take(1).for_each(|byte| *byte = 0);
        }
    }),
    ("the length is that of the protected packet", |d| {
        if d.finished(Call::ReceiveMedia) {
            d.answer.length = d.packet.len() as u16;
        }
    }),
    ("a wrong tag is let in", |d| {
        if d.refused(Call::ReceiveMedia, Refusal::Forged) {
            *d.answer = Answer {
                outcome: FINISHED,
                index: d.index() as u64,
                length: d.media().authenticated.len() as u16,
                ..d.answer.clone()
            };
        }
    }),
    ("a repeat is OLD", |d| {
        if d.refused(Call::ReceiveMedia, Refusal::Repeat) {
            d.refuse(Refusal::Old);
        }
    }),
];

/// Whether judging the answers of a program with this slip finds a fault.
fn is_found(evening: &Evening, slip: impl Fn(&mut Done)) -> bool {
    let mut contexts = Contexts::default();
    let records = Records::new(&evening.trace);
    let answers = records.flat_map(|record| slipped(&mut contexts, &record, &slip).to_bytes());
    let verdict = judge(evening, &answers.collect::<Vec<u8>>());
    assert!(verdict.broken.is_empty());
    !verdict.faults.is_empty()
}

#[test]
fn every_slip_is_found() {
    let all = rfc3711::SLIPS.iter().chain(rfc4771::SLIPS);
    let shared: Vec<_> = all.filter(|(name, _)| SHARED.contains(name)).collect();
    assert_eq!(shared.len(), SHARED.len());
    let mut evenings: Vec<Evening> = (1..=12).map(whole_evening).collect();
    // Those with the longest tags first: under RCCm2 most slips show.
    let tag_length = |evening: &Evening| Records::new(&evening.trace).next().unwrap().body[0];
    evenings.sort_by_key(|evening| Reverse(tag_length(evening)));
    assert!(!is_found(&evenings[0], |_| {}));
    for (name, slip) in shared.into_iter().chain(OWN) {
        let found = evenings.iter().position(|evening| is_found(evening, slip));
        println!("{name}: {found:?}");
        assert!(found.is_some(), "{name}");
    }
}

#[test]
fn a_comparison_compares_and_judges() {
    let mut evening = whole_evening(3);
    let answers = answer_trace(&evening.trace);
    let records = evening.roles.len() as u64;
    let report = |evening: &Evening, answers: &[u8]| {
        let mut report = Report::default();
        report.compare_evening(evening, answers);
        (report.passed, report.failed, report.differences.concat())
    };
    assert_eq!(report(&evening, &answers), (records + 1, 0, String::new()));
    // A byte that the property says nothing of.
    let mut changed = answers.clone();
    changed[2] ^= 1;
    assert_eq!(report(&evening, &changed).1, 1);
    // Every byte agrees, but the first delivery is said to be strange.
    let is_delivery = |role: &Role| matches!(role, Role::Delivery { .. });
    let first = evening.roles.iter().position(is_delivery).unwrap();
    evening.roles[first] = Role::Strange;
    let (passed, failed, told) = report(&evening, &answers);
    assert_eq!(passed, records);
    assert!(failed > 0 && told.contains("whole evening: "), "{told}");
}

fn compare(calls: u64, evenings: u64) -> (Output, String) {
    let output = Command::new(env!("CARGO_BIN_EXE_compare"))
        .args(["--program", env!("CARGO_BIN_EXE_answer"), "--seed", "7"])
        .args(["--calls", &calls.to_string(), "--evenings", &evenings.to_string()])
        .output()
        .unwrap();
    let text = String::from_utf8_lossy(&output.stdout).into_owned();
    (output, text)
}

/// The line of a report that starts so.
fn line<'a>(text: &'a str, start: &str) -> Option<&'a str> {
    text.lines().find(|line| line.starts_with(start))
}

#[test]
fn compare_plays_evenings_after_everything_else() {
    let (output, text) = compare(30_000, EVENINGS);
    assert!(output.status.success(), "{text}");
    assert!(text.lines().last().unwrap().ends_with(" passed, 0 failed"), "{text}");
    let told = line(&text, "whole evenings ").unwrap();
    assert!(told.ends_with(&format!(" {EVENINGS}")), "{told}");
    let (_, without) = compare(30_000, 0);
    assert_eq!(line(&without, "whole evenings "), None);
    assert_eq!(line(&text, "calls: "), line(&without, "calls: "));
}

#[test]
fn too_few_evenings_fail() {
    let (output, text) = compare(30_000, 1);
    assert_eq!(output.status.code(), Some(1));
    assert!(line(&text, "never met: whole evening: ").is_some(), "{text}");
}
