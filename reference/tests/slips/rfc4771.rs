//! Slips in the transform that carries the rollover count (RFC 4771, mode 2).

use super::done::{Done, Sent, Slip};
use reference::index::{self, MAX_MEDIA_INDEX};
use reference::refusal::Refusal;
use reference::settings::{Integrity, SetUp};
use reference::settings::{CARRIED_COUNT_LENGTH, CONTROL_TAG_LENGTH, RCCM2_TAG_LENGTH};
use reference::trace::Call::{ReceiveMedia, SendControl};
use reference::trace::RATE_ID;

/// What a carried count leaves of the MAC.
const SHORT_MAC: usize = RCCM2_TAG_LENGTH - CARRIED_COUNT_LENGTH;

pub const SLIPS: &[Slip] = &[
    ("the MAC doesn't cover the carried count", |d| {
        d.rewrite_tag(|sent| sent.is_carrier().then(|| sent.tag_over(true, &[sent.authenticated])))
    }),
    ("the carried count is that of the sender's last index", |d| {
        d.rewrite_tag(|sent| {
            let last = index::rollover_count(sent.last_index?).to_be_bytes();
            sent.is_carrier().then(|| [&last, &sent.tag(true)[last.len()..]].concat())
        })
    }),
    ("the carried count stands little end first", |d| {
        d.rewrite_tag(|sent| {
            let mut tag = sent.tag(true);
            tag[..CARRIED_COUNT_LENGTH].reverse();
            sent.is_carrier().then_some(tag)
        })
    }),
    ("the carried count stands behind the MAC", |d| {
        d.rewrite_tag(|sent| {
            let mut tag = sent.tag(true);
            tag.rotate_left(CARRIED_COUNT_LENGTH);
            sent.is_carrier().then_some(tag)
        })
    }),
    ("a 14-byte MAC is cut to 10", |d| {
        d.rewrite_tag(|sent| {
            let mut tag = sent.tag(false);
            tag.iter_mut().skip(SHORT_MAC).for_each(|byte| *byte = 0);
            (sent.rate().is_some() && !sent.is_carrier()).then_some(tag)
        })
    }),
    ("the index decides which packets carry the count", |d| {
        d.rewrite_tag(|sent| {
            let rate = sent.rate()?;
            Some(sent.tag(sent.index % u64::from(rate) == 0))
        })
    }),
    ("every packet carries the count", |d| {
        d.rewrite_tag(|sent| Some(sent.tag(sent.rate().is_some())))
    }),
    ("number 0 carries nothing", |d| {
        d.rewrite_tag(|sent| Some(sent.tag(sent.is_carrier() && index::number(sent.index) > 0)))
    }),
    ("the index decides which packets are read", |d| {
        let differs = |rate| d.answer.index % u64::from(rate) > 0;
        if d.finished_reading() && d.rate().is_some_and(differs) {
            d.refuse(Refusal::Forged);
        }
    }),
    ("H's count stands for the carried one", |d| {
        if d.finished_reading() && d.estimate() != d.index() {
            d.refuse(Refusal::Forged);
        }
    }),
    ("the carried count is read, and the MAC covers H's", |d| {
        if d.refused_reading(Refusal::Forged) {
            let (index, count) = (d.index() as u64, (d.estimate() >> 16) as u32);
            d.open_with_tag(|tag| {
                tag[..CARRIED_COUNT_LENGTH].copy_from_slice(&count.to_be_bytes());
            });
            if d.finished(ReceiveMedia) {
                d.answer.index = index;
            }
        }
    }),
    ("10 bytes of a 14-byte MAC are checked", |d| {
        let is_long = d.rate().is_some();
        if d.refused(ReceiveMedia, Refusal::Forged) && is_long && !d.is_carrier() {
            let mac = d.right_mac();
            let end = SHORT_MAC..RCCM2_TAG_LENGTH;
            d.open_with_tag(|tag| tag[end.clone()].copy_from_slice(&mac[end.clone()]));
        }
    }),
    ("a read index is never OLD", |d| {
        if d.refused_reading(Refusal::Old) {
            d.open_at(d.index() as u64);
        }
    }),
    ("a read index is never REPEAT", |d| {
        if d.refused_reading(Refusal::Repeat) {
            d.open_at(d.index() as u64);
        }
    }),
    ("a read index is not marked", |d| {
        if d.finished_reading() {
            d.after.receiver.media.accepted.remove(&d.answer.index);
        }
    }),
    ("H goes back to a read index", |d| {
        if d.finished_reading() {
            d.after.receiver.media.highest = Some(d.answer.index);
        }
    }),
    ("H moves to a read index before the tag is checked", |d| {
        if d.refused_reading(Refusal::Forged) {
            let index = d.index() as u64;
            d.after.receiver.media.highest = d.after.receiver.media.highest.max(Some(index));
        }
    }),
    ("a read index is no farther ahead than an estimate", |d| {
        if d.finished_reading() && d.distance() > 32_768 {
            d.refuse(Refusal::Old);
        }
    }),
    ("a receiver without H reads no other count than the started one", |d| {
        if d.finished_reading() && d.before.receiver.media.highest.is_none() {
            let count = index::rollover_count(d.answer.index);
            if count != d.before.receiver.started_count {
                d.refuse(Refusal::Forged);
            }
        }
    }),
    ("an estimate above the last index is SPENT, read or not", |d| {
        if d.refused_reading(Refusal::Old) && d.estimate() > i128::from(MAX_MEDIA_INDEX) {
            d.refuse(Refusal::Spent);
        }
    }),
    ("an estimate below zero is OLD, read or not", |d| {
        if d.finished_reading() && d.estimate() < 0 {
            d.refuse(Refusal::Old);
        }
    }),
    ("the control tag has the media tag's length", |d| {
        let session = d.before.sender.session.as_ref();
        let longer = session.map_or(0, |session| {
            session.settings.media_tag_length.saturating_sub(CONTROL_TAG_LENGTH)
        });
        if d.finished(SendControl) && usize::from(d.answer.length) + longer > d.room {
            d.refuse(Refusal::Room);
        }
    }),
    ("the control tag carries a count", |d| {
        let session = d.before.sender.session.as_ref();
        let carries =
            session.is_some_and(|s| s.settings.integrity.carries_count(d.answer.index as u16));
        if d.finished(SendControl) && carries {
            let end = usize::from(d.answer.length);
            let tag = &mut d.answer.buffer[end - CONTROL_TAG_LENGTH..end];
            tag.rotate_right(CARRIED_COUNT_LENGTH);
            tag[..CARRIED_COUNT_LENGTH].fill(0);
        }
    }),
    ("a rate of 0 is accepted", |d| {
        d.accept_with(|values| {
            if values.integrity == (Integrity::Rccm2 { rate: 0 }) {
                values.integrity = Integrity::Rccm2 { rate: 1 };
            }
        })
    }),
    ("a tag of 14 is accepted without the transform", |d| {
        d.accept_with(|values| {
            if values.tag_length == 14 {
                values.tag_length = 10;
            }
        })
    }),
    ("a tag of 10 is accepted with the transform", |d| d.accept_with(|v| swap_tag(v, 10))),
    ("a tag of 4 is accepted with the transform", |d| d.accept_with(|v| swap_tag(v, 4))),
    ("the rate is read little end first", |d| {
        let settings = d.new_settings().map(|settings| &mut settings.integrity);
        if let Some(Integrity::Rccm2 { rate }) = settings {
            *rate = rate.swap_bytes();
        }
    }),
    ("an unknown setting is passed over", |d| {
        d.pass_over(|rest| rest[0] != RATE_ID && rest.get(1).is_some_and(|l| fills(*l, rest)))
    }),
    ("a rate of another length is passed over", |d| {
        d.pass_over(|rest| {
            rest[0] == RATE_ID && rest.get(1).is_some_and(|l| *l != 2 && fills(*l, rest))
        })
    }),
    ("a second rate is passed over", |d| d.pass_over(|rest| rest.starts_with(&[RATE_ID, 2]))),
    ("a cut setting is passed over", |d| {
        d.pass_over(|rest| rest.get(1).is_none_or(|l| rest.len() < 2 + usize::from(*l)))
    }),
];

fn rate(integrity: Integrity) -> Option<u16> {
    match integrity {
        Integrity::HmacSha1 => None,
        Integrity::Rccm2 { rate } => Some(rate),
    }
}

/// Whether a setting of this length ends where the body does.
fn fills(length: u8, rest: &[u8]) -> bool {
    rest.len() == 2 + usize::from(length)
}

/// Gives a set-up of the transform with this tag length the right one.
fn swap_tag(values: &mut SetUp, length: u8) {
    if values.tag_length == length && values.integrity != Integrity::HmacSha1 {
        values.tag_length = 14;
    }
}

impl Sent<'_> {
    fn rate(&self) -> Option<u16> {
        rate(self.session.settings.integrity)
    }
}

impl Done<'_> {
    /// The receiver's rate.
    fn rate(&self) -> Option<u16> {
        rate(self.before.receiver.session.as_ref()?.settings.integrity)
    }

    /// Whether a received media packet's tag carries the count.
    fn is_carrier(&self) -> bool {
        self.media().carried_count.is_some()
    }

    fn finished_reading(&self) -> bool {
        self.finished(ReceiveMedia) && self.is_carrier()
    }

    fn refused_reading(&self, refusal: Refusal) -> bool {
        self.refused(ReceiveMedia, refusal) && self.is_carrier()
    }

    /// The MAC that a received packet should have.
    fn right_mac(&self) -> [u8; 20] {
        let session = self.before.receiver.session.as_ref().unwrap();
        session.media_mac(self.media().authenticated, (self.index() >> 16) as u32)
    }

    /// Opens the packet with a change in its tag.
    fn open_with_tag(&mut self, change: impl Fn(&mut [u8])) {
        let mut packet = self.packet.to_vec();
        let tag = packet.len() - self.settings().media_tag_length;
        change(&mut packet[tag..]);
        self.open_instead(&packet);
    }
}
