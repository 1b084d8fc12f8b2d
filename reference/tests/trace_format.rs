//! The trace format, byte by byte.

mod common;

use common::{bytes, rtcp, rtp, set_up, set_up_rccm2};
use reference::settings::{SetUp, Start};
use reference::trace::{answer_trace, sender_body, Record};

fn record(op: u8, body: &[u8]) -> Vec<u8> {
    let mut bytes = Vec::new();
    Record { op, body }.write(&mut bytes);
    bytes
}

fn call(op: u8, room: u16, packet: &[u8]) -> Vec<u8> {
    record(op, &[&room.to_be_bytes(), packet].concat())
}

fn receiver_body(values: &SetUp, start: Start) -> Vec<u8> {
    reference::trace::receiver_body(values, start, 0x5555)
}

/// An answer without a packet.
fn plain_answer(op: u8, outcome: u8, room: u16) -> Vec<u8> {
    let mut answer = vec![op, outcome, 0, 0, 0, 0, 0, 0, 0, 0, 0, 0];
    answer.extend_from_slice(&room.to_be_bytes());
    answer.extend(vec![0xa5; usize::from(room)]);
    answer
}

#[test]
fn layouts_are_those_of_the_paper() {
    assert_eq!(
        record(2, &receiver_body(&set_up(), Start { rollover_count: 258, last_number: Some(3) })),
        bytes(
            "02 002e 0a 01 cafebabe 10 e1f97a0d3e018be0d64fa32c06de4139 \
             0e 0ec675ad498afeebb6960b3aabe6 00 00000102 01 0003"
        )
    );
    let trace =
        [record(1, &sender_body(&set_up())), call(3, 40, &rtp(0x1234, 16)), call(4, 38, &rtcp(16))];
    let answers = [
        plain_answer(1, 0, 0),
        bytes(
            "03 00 0000000000001234 0026 0028 800f1234decafbadcafebabe4e55dc4ce79978d88ca4d215949\
             d2402b78d6acc99ea179b8dbb a5a5",
        ),
        bytes(
            "04 00 0000000000000000 0026 0026 81c8000bcafebabeb19c219a086b6c7ae61d8e0bfeb4be3f8000\
             00005631d6cfc906cdb30f41",
        ),
    ];
    assert_eq!(answer_trace(&trace.concat()), answers.concat());
}

/// The rate stands behind everything else, in a sender's set-up behind the MKI and in a
/// receiver's behind the last number.
#[test]
fn the_rate_is_the_setting_of_id_1() {
    let values = SetUp { mki: bytes("0a0b"), ..set_up_rccm2(258) };
    let fields = "0e 01 cafebabe 10 e1f97a0d3e018be0d64fa32c06de4139 \
                  0e 0ec675ad498afeebb6960b3aabe6 02 0a0b";
    let start = Start { rollover_count: 258, last_number: None };
    assert_eq!(sender_body(&values), bytes(&format!("{fields} 01 02 0102")));
    let receiver = bytes(&format!("{fields} 00000102 00 5555 01 02 0102"));
    assert_eq!(receiver_body(&values, start), receiver);
    // Number 258 carries the count, number 259 doesn't; the tag has 14 bytes in each packet.
    let trace = [
        record(1, &sender_body(&values)),
        record(2, &receiver),
        call(3, 28, &rtp(258, 0)),
        call(3, 28, &rtp(259, 0)),
        call(5, 12, &[&rtp(258, 0)[..], &bytes("0a0b 00000000 709a08f96259d2601c0b")].concat()),
    ];
    let answers = [
        plain_answer(1, 0, 0),
        plain_answer(2, 0, 0),
        bytes(
            "03 00 0000000000000102 001c 001c 800f0102decafbadcafebabe 0a0b 00000000 \
             709a08f96259d2601c0b",
        ),
        bytes(
            "03 00 0000000000000103 001c 001c 800f0103decafbadcafebabe 0a0b \
             c52727ff6c33985b13e9a2f225d1",
        ),
        bytes("05 00 0000000000000102 000c 000c 800f0102decafbadcafebabe"),
    ];
    assert_eq!(answer_trace(&trace.concat()), answers.concat());
}

/// Settings that fit the format, though set-up refuses their values.
#[test]
fn settings_off_the_list_fit() {
    let start = Start { rollover_count: 0, last_number: Some(9) };
    for values in [
        set_up_rccm2(0),
        SetUp { tag_length: 14, ..set_up() },
        SetUp { tag_length: 10, ..set_up_rccm2(1) },
        SetUp { tag_length: 4, ..set_up_rccm2(65_535) },
    ] {
        let trace = [record(1, &sender_body(&values)), record(2, &receiver_body(&values, start))];
        let answers = [plain_answer(1, 1, 0), plain_answer(2, 1, 0)];
        assert_eq!(answer_trace(&trace.concat()), answers.concat(), "{values:?}");
    }
}

#[test]
fn settings_that_do_not_fit_are_answered_by_255() {
    let start = Start { rollover_count: 0, last_number: None };
    // Unknown ids, other lengths, the same setting twice, cut settings, and bytes behind.
    let misfits = [
        "00 00",
        "00 02 0001",
        "02 02 0001",
        "ff 00",
        "01 02 0001 02 00",
        "02 00 01 02 0001",
        "01 00",
        "01 01 01",
        "01 03 000001",
        "01 04 00000001",
        "01 02 0001 01 02 0001",
        "01 02 0001 01 02 0002",
        "01 02 0000 01 02 0001",
        "01",
        "01 02",
        "01 02 00",
        "01 02 0001 00",
        "01 02 0001 01",
    ];
    for settings in misfits {
        for length in [4, 10, 14] {
            let values = SetUp { tag_length: length, ..set_up() };
            for (op, body) in [(1, sender_body(&values)), (2, receiver_body(&values, start))] {
                let misfit = record(op, &[body, bytes(settings)].concat());
                assert_eq!(answer_trace(&misfit), plain_answer(op, 255, 0), "{settings}");
            }
        }
    }
}

#[test]
fn a_call_before_its_set_up_finds_the_closed_context() {
    let trace = [
        call(3, 5, &rtp(1, 5)),
        record(1, &sender_body(&set_up())),
        call(6, 0, &rtcp(40)),
        call(5, 7, &[]),
    ];
    let answers = [
        plain_answer(3, 1, 5),
        plain_answer(1, 0, 0),
        plain_answer(6, 1, 0),
        plain_answer(5, 1, 7),
    ];
    assert_eq!(answer_trace(&trace.concat()), answers.concat());
}

#[test]
fn records_that_do_not_fit_are_answered_by_255() {
    let start = Start { rollover_count: 0, last_number: None };
    let good_sender = sender_body(&set_up());
    let good_receiver = receiver_body(&set_up(), start);
    let mut neither_known_nor_unknown = good_receiver.clone();
    let place = good_receiver.len() - 3;
    neither_known_nor_unknown[place] = 2;
    let misfits = [
        record(0, &[]),
        record(7, &[1, 2, 3]),
        record(255, &[0; 8193]),
        record(1, &good_sender[..good_sender.len() - 1]),
        record(1, &[&good_sender[..], &[1, 0]].concat()),
        record(1, &[&good_sender[..], &[1]].concat()),
        record(1, &[]),
        record(2, &good_sender),
        record(2, &[&good_receiver[..], &[9, 1, 1]].concat()),
        record(2, &neither_known_nor_unknown),
        record(3, &[]),
        record(4, &[0]),
        call(5, 4097, &rtp(1, 20)),
        call(6, 65_535, &rtcp(40)),
        record(3, &[0; 8193]),
        record(5, &[0; 65_535]),
    ];
    for misfit in misfits {
        assert_eq!(answer_trace(&misfit), plain_answer(misfit[0], 255, 0));
        // It changes no context, and the next record is read.
        let trace = [&record(1, &good_sender)[..], &misfit, &call(3, 40, &rtp(5, 0))].concat();
        assert_eq!(answer_trace(&trace)[14..28], plain_answer(misfit[0], 255, 0));
        assert_eq!(answer_trace(&trace)[28..30], [3, 0]);
    }
}

#[test]
fn the_largest_records_fit() {
    let largest = call(3, 4096, &[0x80; 8190]);
    assert_eq!(answer_trace(&largest), plain_answer(3, 1, 4096));
    let trace = [record(1, &sender_body(&set_up())), largest].concat();
    assert_eq!(answer_trace(&trace)[14..], plain_answer(3, 2, 4096));
}

#[test]
fn a_refused_set_up_closes_its_context_only() {
    let refused = SetUp { cipher: 2, ..set_up() };
    let start = Start { rollover_count: 0, last_number: None };
    let trace = [
        record(1, &sender_body(&set_up())),
        record(2, &receiver_body(&set_up(), start)),
        record(1, &sender_body(&refused)),
        call(3, 40, &rtp(1, 0)),
        call(5, 40, &[]),
        record(2, &receiver_body(&refused, start)),
        call(5, 40, &[]),
    ];
    let answers = [
        plain_answer(1, 0, 0),
        plain_answer(2, 0, 0),
        plain_answer(1, 1, 0),
        plain_answer(3, 1, 40),
        plain_answer(5, 3, 40),
        plain_answer(2, 1, 0),
        plain_answer(5, 1, 40),
    ];
    assert_eq!(answer_trace(&trace.concat()), answers.concat());
}

#[test]
fn a_cut_final_record_ends_the_run() {
    let whole = call(3, 4, &rtp(1, 2));
    for kept in 0..whole.len() {
        let trace = [&whole[..], &whole[..kept]].concat();
        assert_eq!(answer_trace(&trace), plain_answer(3, 1, 4));
    }
    let too_long = record(3, &[0; 9000]);
    assert_eq!(answer_trace(&too_long[..8999]), []);
}
