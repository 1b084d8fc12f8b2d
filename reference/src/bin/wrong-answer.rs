//! Answers a trace with one known slip: H moves before the tag is checked, so that one forged
//! packet blinds the stream. It is there to show that the comparison can fail.

use reference::layout::ProtectedMedia;
use reference::refusal::Refusal;
use reference::trace::{Call, Contexts, Records, Request};
use std::io::{self, Read, Write};

fn main() -> io::Result<()> {
    let mut trace = Vec::new();
    io::stdin().lock().read_to_end(&mut trace)?;
    let mut contexts = Contexts::default();
    let mut answers = Vec::new();
    for record in Records::new(&trace) {
        let answer = contexts.answer(&record);
        if answer.op == Call::ReceiveMedia.op() && answer.outcome == Refusal::Forged.number() {
            if let Some(Request::Packet { packet, .. }) = Request::read(&record) {
                move_highest(&mut contexts, packet);
            }
        }
        answers.extend(answer.to_bytes());
    }
    io::stdout().lock().write_all(&answers)
}

fn move_highest(contexts: &mut Contexts, packet: &[u8]) {
    let receiver = &mut contexts.receiver;
    let Some(session) = &receiver.session else { return };
    let Some(packet) = ProtectedMedia::read(packet, &session.settings) else { return };
    if let Ok(index) = receiver.media_index(&packet) {
        receiver.media.highest = receiver.media.highest.max(Some(index));
    }
}
