//! Corners of RFC 3711 and of the link's rules. Where an index is estimated, the distances are
//! those of packets that don't carry the rollover count.

use super::event::Corner;
use crate::index::{MAX_CONTROL_INDEX, MAX_MEDIA_INDEX};
use crate::layout::RtpHeader;
use crate::refusal::Refusal::{Forged, Long, Old, Order, Spent};
use crate::settings::Cipher;
use crate::trace::Call::{ReceiveControl, ReceiveMedia, SendControl, SendMedia};

pub const CORNERS: &[Corner] = &[
    ("send media: first packet", |e| e.finished(SendMedia) && e.before.sender.last_index.is_none()),
    ("send media: step 32,767 done", |e| e.finished(SendMedia) && e.step() == Some(32_767)),
    ("send media: step 32,768 ORDER", |e| e.refused(SendMedia, Order) && e.step() == Some(32_768)),
    ("send media: step 0 ORDER", |e| e.refused(SendMedia, Order) && e.step() == Some(0)),
    ("send media: rollover", |e| {
        e.finished(SendMedia)
            && e.before.sender.last_index.is_some_and(|last| last >> 16 < e.answer.index >> 16)
    }),
    ("send media: 2,048 bytes done", |e| e.finished(SendMedia) && e.packet.len() == 2048),
    ("send media: 2,049 bytes LONG", |e| e.refused(SendMedia, Long) && e.packet.len() == 2049),
    ("send media: just enough room", |e| e.fills_room(SendMedia)),
    ("send media: one byte short ROOM", |e| e.lacks_one_byte(SendMedia)),
    ("send media: empty payload", |e| {
        e.finished(SendMedia)
            && RtpHeader::read(e.packet).is_some_and(|header| header.length == e.packet.len())
    }),
    ("send control: 2,048 bytes done", |e| e.finished(SendControl) && e.packet.len() == 2048),
    ("send control: 2,052 bytes LONG", |e| e.refused(SendControl, Long) && e.packet.len() == 2052),
    ("send control: just enough room", |e| e.fills_room(SendControl)),
    ("send control: one byte short ROOM", |e| e.lacks_one_byte(SendControl)),
    ("receive media: first, no H", |e| e.finished(ReceiveMedia) && e.highest().is_none()),
    ("receive media: FORGED, no H", |e| e.refused(ReceiveMedia, Forged) && e.highest().is_none()),
    ("receive media: started H itself", |e| {
        e.finished(ReceiveMedia) && e.estimated_distance() == Some(0)
    }),
    ("receive media: 32,767 ahead done", |e| {
        e.finished(ReceiveMedia) && e.estimated_distance() == Some(32_767)
    }),
    ("receive media: 32,768 ahead done", |e| {
        e.finished(ReceiveMedia) && e.estimated_distance() == Some(32_768)
    }),
    ("receive media: 1,023 behind done", |e| {
        e.finished(ReceiveMedia) && e.estimated_distance() == Some(-1023)
    }),
    ("receive media: 1,024 behind OLD", |e| {
        e.refused(ReceiveMedia, Old) && e.estimated_distance() == Some(-1024)
    }),
    ("receive media: 32,767 behind OLD", |e| {
        e.refused(ReceiveMedia, Old) && e.estimated_distance() == Some(-32_767)
    }),
    ("receive media: below 0 OLD", |e| {
        e.refused(ReceiveMedia, Old) && e.estimate().is_some_and(|index| index < 0)
    }),
    ("receive media: 2^48 - 1 done", |e| {
        e.finished(ReceiveMedia) && e.answer.index == MAX_MEDIA_INDEX
    }),
    ("receive media: 2^48 SPENT", |e| {
        e.refused(ReceiveMedia, Spent) && e.estimate() == Some(i128::from(MAX_MEDIA_INDEX) + 1)
    }),
    ("receive media: late over a rollover", |e| {
        e.finished(ReceiveMedia) && e.is_late_over_a_rollover()
    }),
    ("receive media: 2,048 bytes done", |e| e.finished(ReceiveMedia) && e.answer.length == 2048),
    ("receive media: 2,049 bytes LONG", |e| e.is_long_at(ReceiveMedia, 2049)),
    ("receive media: just enough room", |e| e.fills_room(ReceiveMedia)),
    ("receive media: one byte short ROOM", |e| e.lacks_one_byte(ReceiveMedia)),
    ("receive control: first is not 0", |e| {
        e.finished(ReceiveControl)
            && e.before.receiver.control.highest.is_none()
            && e.answer.index > 0
    }),
    ("receive control: 1,023 behind done", |e| {
        e.finished(ReceiveControl) && e.distance() == Some(-1023)
    }),
    ("receive control: 1,024 behind OLD", |e| {
        e.refused(ReceiveControl, Old) && e.distance() == Some(-1024)
    }),
    ("receive control: 2^31 - 1 done", |e| {
        e.finished(ReceiveControl) && e.answer.index == MAX_CONTROL_INDEX
    }),
    ("receive control: E 0 under AES", |e| {
        e.finished(ReceiveControl) && e.has_e_bit(Cipher::AesCounterMode, false)
    }),
    ("receive control: E 1 under NULL", |e| {
        e.finished(ReceiveControl) && e.has_e_bit(Cipher::Null, true)
    }),
    ("receive control: 2,048 bytes done", |e| {
        e.finished(ReceiveControl) && e.answer.length == 2048
    }),
    ("receive control: 2,052 bytes LONG", |e| e.is_long_at(ReceiveControl, 2052)),
    ("receive control: just enough room", |e| e.fills_room(ReceiveControl)),
    ("receive control: one byte short ROOM", |e| e.lacks_one_byte(ReceiveControl)),
];
