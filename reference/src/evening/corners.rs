//! The corners that evenings must have met.

use super::runs::{Received, Runs};
use crate::index;
use crate::settings::{Cipher, SetUp};

/// A corner: its name, and whether a call is in it.
pub type Corner = (&'static str, fn(&Seen) -> bool);

/// A call that receives media and was answered as the property has it: a first delivery is let in,
/// another one is REPEAT, and a strange string is refused.
pub struct Seen<'a> {
    pub runs: &'a Runs<'a>,
    pub received: &'a Received<'a>,
    /// The packet's index, if the sender has sent it. A packet that doesn't keep up is strange.
    pub index: Option<u64>,
}

pub const CORNERS: &[Corner] = &[
    ("let in: first of all, at a count above 0", |s| {
        s.is_let_in() && s.starts() && s.count() > Some(0)
    }),
    ("let in: first of all, carried, not the started count", |s| {
        s.is_let_in() && s.starts() && s.count() != Some(s.runs.started_count())
    }),
    ("let in: 1,023 ahead", |s| s.is_let_in() && s.distance() == Some(1023)),
    ("let in: 1,024 ahead", |s| s.is_let_in() && s.distance() == Some(1024)),
    ("let in: not carried, 32,767 ahead", |s| {
        s.is_let_in() && !s.is_carrier() && s.distance() == Some(32_767)
    }),
    ("let in: carried, over 32,768 ahead", |s| {
        s.is_let_in() && s.is_carrier() && s.distance() > Some(32_768)
    }),
    ("let in: carried, several rollovers ahead", |s| {
        s.is_let_in() && s.is_carrier() && s.distance() >= Some(2 * 65_536)
    }),
    ("let in: not carried, 1,023 behind", |s| {
        s.is_let_in() && !s.is_carrier() && s.distance() == Some(-1023)
    }),
    ("let in: carried, 1,023 behind", |s| {
        s.is_let_in() && s.is_carrier() && s.distance() == Some(-1023)
    }),
    ("let in: over a rollover", |s| s.is_let_in() && s.rollovers() > 0),
    ("let in: late over a rollover", |s| s.is_let_in() && s.rollovers() < 0),
    ("let in: just enough room", |s| s.is_let_in() && s.fills_room()),
    ("let in: AES", |s| s.is_let_in() && s.has_cipher(Cipher::AesCounterMode)),
    ("let in: NULL", |s| s.is_let_in() && s.has_cipher(Cipher::Null)),
    ("let in: tag of 4", |s| s.is_let_in() && s.has(|values| values.tag_length == 4)),
    ("let in: tag of 10", |s| s.is_let_in() && s.has(|values| values.tag_length == 10)),
    ("let in: tag of 14", |s| s.is_let_in() && s.has(|values| values.tag_length == 14)),
    ("let in: MKI of 0", |s| s.is_let_in() && s.has(|values| values.mki.is_empty())),
    ("let in: MKI of 4", |s| s.is_let_in() && s.has(|values| values.mki.len() == 4)),
    ("REPEAT: the highest", |s| s.is_repeat() && s.distance() == Some(0)),
    ("REPEAT: 1,023 behind", |s| s.is_repeat() && s.distance() == Some(-1023)),
    ("REPEAT: over a rollover behind", |s| s.is_repeat() && s.rollovers() < 0),
    ("strange: before the first delivery", |s| s.is_strange() && s.starts()),
    ("strange: sent, 1,024 behind", |s| s.is_strange() && s.distance() == Some(-1024)),
    ("strange: sent, 32,769 ahead", |s| s.is_strange() && s.distance() == Some(32_769)),
    ("strange: sent, over a rollover ahead", |s| s.is_strange() && s.distance() > Some(65_536)),
];

impl Seen<'_> {
    pub fn is_let_in(&self) -> bool {
        self.received.delivery.is_some_and(|delivery| delivery.is_first)
    }

    pub fn is_repeat(&self) -> bool {
        self.received.delivery.is_some_and(|delivery| !delivery.is_first)
    }

    pub fn is_strange(&self) -> bool {
        self.received.delivery.is_none()
    }

    fn is_carrier(&self) -> bool {
        self.received.delivery.is_some_and(|delivery| delivery.carries_count)
    }

    /// Whether nothing was delivered before.
    fn starts(&self) -> bool {
        self.received.highest.is_none()
    }

    fn count(&self) -> Option<u32> {
        self.index.map(index::rollover_count)
    }

    /// How far the packet is ahead of the highest delivered before.
    fn distance(&self) -> Option<i64> {
        Some(self.index? as i64 - self.received.highest? as i64)
    }

    /// How many rollovers it is ahead; 0 if there is nothing to compare.
    fn rollovers(&self) -> i64 {
        let counts = self.count().zip(self.received.highest.map(index::rollover_count));
        counts.map_or(0, |(count, highest)| i64::from(count) - i64::from(highest))
    }

    fn fills_room(&self) -> bool {
        let plain = self.received.delivery.map(|delivery| delivery.sent.plain.len());
        plain == Some(self.received.room)
    }

    fn has_cipher(&self, cipher: Cipher) -> bool {
        self.has(|values| Cipher::from_number(values.cipher) == Some(cipher))
    }

    fn has(&self, holds: impl Fn(&SetUp) -> bool) -> bool {
        self.runs.receiver.as_ref().is_some_and(|(values, _)| holds(values))
    }
}
