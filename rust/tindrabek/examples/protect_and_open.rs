//! Protects the packets of a small stream and opens them as a receiver might get them: damaged, twice, late, and across a rollover.
//! It writes what happened, in the words of `examples/c/protect_and_open.c`.
use tindrabek::{Packet, Profile, Receiver, Refusal, Sender, SetUp, MAX_RESULT_LEN};

const SSRC: u32 = 0x0a0b0c0d;

fn rtp(number: u16, text: &str) -> Vec<u8> {
    let mut packet = vec![0x80, 96];
    packet.extend(number.to_be_bytes());
    packet.extend([0, 0, 0, 0]);
    packet.extend(SSRC.to_be_bytes());
    packet.extend(text.as_bytes());
    packet
}

fn rtcp(text: &str) -> Vec<u8> {
    let mut packet = vec![0x80, 204, 0, 4];
    packet.extend(SSRC.to_be_bytes());
    packet.extend(text.as_bytes());
    packet
}

fn protect(what: &str, plain: &[u8], answer: Result<Packet, Refusal>, out: &[u8]) -> Vec<u8> {
    match answer {
        Ok(packet) => {
            println!(
                "sender:   {what}: {} bytes protected to {}, index {}",
                plain.len(),
                packet.len,
                packet.index
            );
            out[..packet.len].to_vec()
        }
        Err(refusal) => {
            println!("sender:   {what}: refused as {refusal}");
            Vec::new()
        }
    }
}

fn open(what: &str, clear: usize, answer: Result<Packet, Refusal>, out: &[u8]) {
    match answer {
        Ok(packet) => println!(
            "receiver: {what}: opened to {} bytes, index {}, saying \"{}\"",
            packet.len,
            packet.index,
            String::from_utf8_lossy(&out[clear..packet.len])
        ),
        Err(refusal) => println!("receiver: {what}: refused as {refusal}"),
    }
}

/// Three media packets across the rollover, one of them twice, and a report. Gives what came out: media, and the report.
fn send_all(sender: &mut Sender) -> (Vec<Vec<u8>>, Vec<u8>) {
    let mut out = [0; MAX_RESULT_LEN];
    let plain =
        [rtp(65_534, "lot 41, two bids"), rtp(65_535, "lot 41, sold"), rtp(0, "lot 42, one bid")];
    let mut sent = Vec::new();
    for (packet, number) in plain.iter().zip([65_534, 65_535, 0]) {
        let answer = sender.send_media(packet, &mut out);
        sent.push(protect(&format!("media {number}"), packet, answer, &out));
    }
    let answer = sender.send_media(&plain[2], &mut out);
    protect("media 0 again", &plain[2], answer, &out);
    let report = rtcp("all is well.");
    let answer = sender.send_control(&report, &mut out);
    (sent, protect("control", &report, answer, &out))
}

/// The first packet damaged before it comes whole, the second late, the third twice; the report into a short buffer and again.
fn receive_all(receiver: &mut Receiver, sent: &[Vec<u8>], report: &[u8]) {
    let mut out = [0; MAX_RESULT_LEN];
    let mut damaged = sent[0].clone();
    damaged[20] ^= 4;
    for (what, packet) in [
        ("media 65534, damaged", &damaged),
        ("media 65534", &sent[0]),
        ("media 0", &sent[2]),
        ("media 65535, late", &sent[1]),
        ("media 0 again", &sent[2]),
    ] {
        let answer = receiver.receive_media(packet, &mut out);
        open(what, 12, answer, &out);
    }
    let answer = receiver.receive_control(report, &mut out[..19]);
    open("control, short buffer", 8, answer, &out);
    let answer = receiver.receive_control(report, &mut out);
    open("control", 8, answer, &out);
}

fn main() -> Result<(), Refusal> {
    let (key, salt) = ([0x2a; 16], [0x17; 14]);
    let profile = Profile::default();
    let set_up = SetUp { ssrc: SSRC, key: &key, salt: &salt, mki: &[1], profile };
    let (sent, report) = send_all(&mut Sender::set_up(&set_up)?);
    receive_all(&mut Receiver::set_up(&set_up, 0, None)?, &sent, &report);
    match Sender::set_up(&SetUp { profile: Profile { tag_len: 5, ..profile }, ..set_up }) {
        Ok(_) => println!("set-up:   a tag of 5 bytes: taken"),
        Err(refusal) => println!("set-up:   a tag of 5 bytes: refused as {refusal}"),
    }
    Ok(())
}
