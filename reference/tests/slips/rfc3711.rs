//! Slips in RFC 3711 and in the link's rules.

use super::done::{Done, Slip};
use reference::context::Sender;
use reference::index::{self, MAX_MEDIA_INDEX};
use reference::layout::{ProtectedMedia, RtpHeader};
use reference::refusal::Refusal;
use reference::replay::WINDOW_LENGTH;
use reference::settings::Cipher;
use reference::trace::Call::{ReceiveControl, ReceiveMedia, SendControl, SendMedia};
use reference::trace::Call::{SetUpReceiver, SetUpSender};
use reference::trace::{FINISHED, MISFIT};

const WINDOW: i128 = WINDOW_LENGTH as i128;

pub const SLIPS: &[Slip] = &[
    ("H moves before the tag is checked", |d| {
        if d.refused(ReceiveMedia, Refusal::Forged) {
            let index = d.index() as u64;
            d.after.receiver.media.highest = d.after.receiver.media.highest.max(Some(index));
        }
    }),
    ("H is set from the first packet seen", |d| {
        if d.refused(ReceiveMedia, Refusal::Forged) && d.before.receiver.media.highest.is_none() {
            d.after.receiver.media.highest = Some(d.index() as u64);
        }
    }),
    ("the tag has H's rollover count", |d| {
        let highest = d.before.receiver.media.highest;
        let differs = |h| index::rollover_count(h) != index::rollover_count(d.answer.index);
        if d.finished(ReceiveMedia) && highest.is_some_and(differs) {
            d.refuse(Refusal::Forged);
        }
    }),
    ("the MKI stands behind the tag", |d| {
        if d.finished(SendMedia) {
            let settings = &d.before.sender.session.as_ref().unwrap().settings;
            let end = usize::from(d.answer.length);
            d.answer.buffer[end - settings.media_expansion()..end].rotate_left(settings.mki.len());
        }
    }),
    ("the tag covers the MKI", |d| {
        d.rewrite_tag(|sent| {
            let covered = [sent.authenticated, &sent.session.settings.mki].concat();
            Some(sent.tag_over(sent.is_carrier(), &[&covered, &sent.count()]))
        })
    }),
    ("an index below zero is opened near 2^48", |d| {
        if d.refused(ReceiveMedia, Refusal::Old) && d.index() < 0 {
            d.open_at((d.index() + i128::from(MAX_MEDIA_INDEX) + 1) as u64);
        }
    }),
    ("an index above the last is opened near zero", |d| {
        if d.refused(ReceiveMedia, Refusal::Spent) {
            d.open_at((d.index() - i128::from(MAX_MEDIA_INDEX) - 1) as u64);
        }
    }),
    ("the media salt is used for control", |d| {
        for session in [&mut d.after.sender.session, &mut d.after.receiver.session] {
            session.iter_mut().for_each(|session| session.control.salt = session.media.salt);
        }
    }),
    ("the window spans 1,025", |d| {
        if d.refused(ReceiveMedia, Refusal::Old) && d.distance() == -WINDOW {
            d.open_at(d.index() as u64);
        }
    }),
    ("the window spans 1,023", |d| {
        if d.finished(ReceiveMedia) && d.distance() == 1 - WINDOW {
            d.refuse(Refusal::Old);
        }
    }),
    ("the control window spans 1,025", |d| {
        if d.refused(ReceiveControl, Refusal::Old) && d.control_distance() == -WINDOW {
            *d.answer = d.control_answer();
        }
    }),
    ("the control window spans 1,023", |d| {
        if d.finished(ReceiveControl) && d.control_distance() == 1 - WINDOW {
            d.refuse(Refusal::Old);
        }
    }),
    ("half the numbers away is behind", |d| {
        if d.finished(ReceiveMedia) && d.distance() == 32_768 {
            d.refuse(Refusal::Old);
        }
    }),
    ("the started H counts as let in", |d| {
        if d.finished(ReceiveMedia) && d.before.receiver.media.highest == Some(d.answer.index) {
            d.refuse(Refusal::Repeat);
        }
    }),
    ("accepted media indices are forgotten", |d| d.after.receiver.media.accepted.clear()),
    ("accepted control indices are forgotten", |d| d.after.receiver.control.accepted.clear()),
    ("late packets are not marked", |d| {
        if d.finished(ReceiveMedia) && d.distance() < 0 {
            d.after.receiver.media.accepted.remove(&d.answer.index);
        }
    }),
    ("a refusal touches the buffer", |d| {
        if d.refused(ReceiveControl, Refusal::Forged) {
            d.answer.buffer.iter_mut().take(1).for_each(|byte| *byte = 0);
        }
    }),
    ("a success clears the bytes behind the packet", |d| {
        if d.finished(SendControl) {
            d.answer.buffer[usize::from(d.answer.length)..].fill(0);
        }
    }),
    ("a refused set-up leaves the context", |d| {
        if d.refused(SetUpReceiver, Refusal::Setup) {
            *d.after = d.before.clone();
        }
    }),
    ("a set-up that doesn't fit closes the context", |d| {
        if d.call == Some(SetUpSender) && d.answer.outcome == MISFIT {
            d.after.sender = Sender::closed();
        }
    }),
    ("a refused packet takes a media index", |d| {
        if d.refused(SendMedia, Refusal::Room) {
            let number = d.header().number;
            if let Ok(index) = index::next_sent(d.before.sender.last_index, number) {
                d.after.sender.last_index = Some(index);
            }
        }
    }),
    ("a refused packet takes a control index", |d| {
        if d.refused(SendControl, Refusal::Room) {
            d.after.sender.control_sent += 1;
        }
    }),
    ("control counts from one", |d| {
        if d.finished(SendControl) {
            d.answer.index += 1;
        }
    }),
    ("the cipher decides, not the E bit", |d| {
        let differs = |d: &Done| d.control().is_enciphered != (d.settings().cipher != Cipher::Null);
        if d.finished(ReceiveControl) && differs(d) {
            d.refuse(Refusal::Forged);
        }
    }),
    ("the header may reach into MKI and tag", |d| {
        if d.refused(ReceiveMedia, Refusal::Shape) && RtpHeader::read(d.packet).is_some() {
            d.refuse(Refusal::Forged);
        }
    }),
    ("the extension's length wraps at 2^16", |d| {
        if d.refused(SendMedia, Refusal::Shape) && d.packet.len() >= 12 {
            let mut packet = d.packet.to_vec();
            let count = 14 + 4 * usize::from(packet[0] & 0x0f);
            packet.iter_mut().skip(count).take(1).for_each(|byte| *byte &= 0x3f);
            if RtpHeader::read(&packet).is_some() {
                d.refuse(Refusal::Room);
            }
        }
    }),
    ("a sender's set-up changes the receiver's keys", |d| {
        if d.finished(SetUpSender) && d.after.receiver.session.is_some() {
            d.after.receiver.session = d.after.sender.session.clone();
        }
    }),
    ("SHAPE before LONG", |d| {
        let settings = d.before.receiver.session.as_ref().map(|session| &session.settings);
        let is_misshapen = |settings| ProtectedMedia::read(d.packet, settings).is_none();
        if d.refused(ReceiveMedia, Refusal::Long) && settings.is_some_and(is_misshapen) {
            d.refuse(Refusal::Shape);
        }
    }),
    ("ROOM before STREAM", |d| {
        if d.refused(ReceiveMedia, Refusal::Stream) {
            let packet = ProtectedMedia::read(d.packet, &d.settings()).unwrap().authenticated.len();
            if d.room < packet {
                d.refuse(Refusal::Room);
            }
        }
    }),
    ("KEY before ROOM", |d| {
        if d.refused(ReceiveMedia, Refusal::Room) {
            let settings = d.settings();
            if ProtectedMedia::read(d.packet, &settings).unwrap().mki != settings.mki {
                d.refuse(Refusal::Key);
            }
        }
    }),
    ("OLD before KEY", |d| {
        if d.refused(ReceiveMedia, Refusal::Key) && d.distance() <= -WINDOW {
            d.refuse(Refusal::Old);
        }
    }),
    ("ORDER before ROOM", |d| {
        if d.refused(SendMedia, Refusal::Room) {
            let number = d.header().number;
            if index::next_sent(d.before.sender.last_index, number).is_err() {
                d.refuse(Refusal::Order);
            }
        }
    }),
    ("FORGED before OLD", |d| {
        if d.refused(ReceiveMedia, Refusal::Old) && d.index() >= 0 && !d.has_good_tag() {
            d.refuse(Refusal::Forged);
        }
    }),
    ("FORGED before REPEAT", |d| {
        if d.refused(ReceiveMedia, Refusal::Repeat) && !d.has_good_tag() {
            d.refuse(Refusal::Forged);
        }
    }),
    ("control: FORGED before REPEAT", |d| {
        if d.refused(ReceiveControl, Refusal::Repeat) && d.control_answer().outcome != FINISHED {
            d.refuse(Refusal::Forged);
        }
    }),
];
