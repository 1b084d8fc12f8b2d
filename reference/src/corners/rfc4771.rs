//! Corners of the transform that carries the rollover count (RFC 4771, mode 2).

use super::event::{Corner, Event};
use crate::index::{self, MAX_MEDIA_INDEX};
use crate::refusal::Refusal::{self, Forged, Old, Repeat};
use crate::settings::Integrity;
use crate::trace::Call::{ReceiveControl, ReceiveMedia, SendControl, SendMedia};

pub const CORNERS: &[Corner] = &[
    ("send media: carried", |e| e.finished(SendMedia) && e.is_carrier()),
    ("send media: carried, first of a rollover", |e| {
        let count = |index: u64| index::rollover_count(index);
        e.finished(SendMedia)
            && e.is_carrier()
            && e.before.sender.last_index.is_some_and(|last| count(last) < count(e.answer.index))
    }),
    ("send media: number 0 mod R but index not", |e| {
        e.finished(SendMedia) && e.are_0_mod_rate() == Some((true, false))
    }),
    ("send media: index 0 mod R but number not", |e| {
        e.finished(SendMedia) && e.are_0_mod_rate() == Some((false, true))
    }),
    ("send control: done under RCCm2", |e| e.finished(SendControl) && e.is_rccm2()),
    ("receive control: done under RCCm2", |e| e.finished(ReceiveControl) && e.is_rccm2()),
    ("receive media: carried, no H, started count", |e| {
        e.starts_by_reading() && e.carried_count() == Some(e.before.receiver.started_count)
    }),
    ("receive media: carried, no H, wrong count", |e| {
        e.starts_by_reading() && e.carried_count() != Some(e.before.receiver.started_count)
    }),
    ("receive media: carried, over 32,768 ahead done", |e| {
        e.finished(ReceiveMedia) && e.carried_distance().is_some_and(|d| d > 32_768)
    }),
    ("receive media: carried, several rollovers ahead done", |e| {
        e.finished(ReceiveMedia) && e.carried_distance().is_some_and(|d| d >= 2 * 65_536)
    }),
    ("receive media: carried, estimate below 0 done", |e| {
        e.finished(ReceiveMedia) && e.misestimate().is_some_and(|index| index < 0)
    }),
    ("receive media: carried, 1,023 behind done", |e| {
        e.finished(ReceiveMedia) && e.carried_distance() == Some(-1023)
    }),
    ("receive media: carried, late over a rollover", |e| {
        e.finished(ReceiveMedia) && e.is_carrier() && e.is_late_over_a_rollover()
    }),
    ("receive media: carried, count of the last rollover 2^32 - 1", |e| {
        e.finished(ReceiveMedia) && e.carried_count() == Some(u32::MAX)
    }),
    ("receive media: carried, 1,024 behind OLD", |e| {
        e.read_and_refused(Old) && e.carried_distance() == Some(-1024)
    }),
    ("receive media: carried, rollovers behind OLD", |e| {
        e.read_and_refused(Old) && e.carried_distance().is_some_and(|d| d <= -65_536)
    }),
    ("receive media: carried, estimate above 2^48 - 1 OLD", |e| {
        e.read_and_refused(Old) && e.misestimate() > Some(i128::from(MAX_MEDIA_INDEX))
    }),
    ("receive media: carried, REPEAT", |e| e.read_and_refused(Repeat)),
    ("receive media: carried, count damaged FORGED", |e| {
        e.read_and_refused(Forged) && e.fits_another_count()
    }),
    ("receive media: carried, MAC damaged FORGED", |e| {
        e.read_and_refused(Forged) && e.wrong_bits() == Some(1)
    }),
    ("receive media: not carried, 14-byte tag done", |e| {
        e.finished(ReceiveMedia) && e.is_rccm2() && !e.is_carrier()
    }),
    ("receive media: not carried, bytes 11 to 14 of the tag damaged FORGED", |e| {
        e.estimated_and_refused(Forged) && e.wrong_bits() == Some(0)
    }),
    ("receive media: not carried, out of step FORGED", |e| {
        e.estimated_and_refused(Forged) && e.fits_another_count()
    }),
    ("receive media: number 0 mod R but index not", |e| {
        e.finished(ReceiveMedia) && e.are_0_mod_rate() == Some((true, false))
    }),
    ("receive media: index 0 mod R but number not", |e| {
        e.finished(ReceiveMedia) && e.are_0_mod_rate() == Some((false, true))
    }),
];

impl Event<'_> {
    /// Whether the tag of the packet, sent or received, carries the rollover count.
    fn is_carrier(&self) -> bool {
        let (Some(session), Some(number)) = (self.session(), self.number()) else { return false };
        session.settings.integrity.carries_count(number)
    }

    fn carried_count(&self) -> Option<u32> {
        self.media()?.carried_count
    }

    /// The distance of a read index from the receiver's highest.
    fn carried_distance(&self) -> Option<i64> {
        let index = index::join(self.carried_count()?, self.number()?);
        Some(index as i64 - self.highest()? as i64)
    }

    /// What a receiver that doesn't read the count would take the index for.
    fn misestimate(&self) -> Option<i128> {
        self.carried_count()?;
        Some(self.before.receiver.estimate(self.number()?))
    }

    fn starts_by_reading(&self) -> bool {
        self.finished(ReceiveMedia) && self.is_carrier() && self.highest().is_none()
    }

    fn read_and_refused(&self, refusal: Refusal) -> bool {
        self.refused(ReceiveMedia, refusal) && self.carried_count().is_some()
    }

    fn estimated_and_refused(&self, refusal: Refusal) -> bool {
        self.refused(ReceiveMedia, refusal) && self.is_rccm2() && self.estimate().is_some()
    }

    /// How many bits are wrong in the first 10 bytes of the MAC, those that every packet has.
    fn wrong_bits(&self) -> Option<u32> {
        let (parts, count) = (self.media()?, index::rollover_count(self.index()?));
        let mac = self.session()?.media_mac(parts.authenticated, count);
        Some(parts.mac.iter().zip(mac).take(10).map(|(a, b)| (a ^ b).count_ones()).sum())
    }

    /// Whether the MAC would be right with another rollover count, a little ahead of the
    /// receiver's or one bit away from the packet's.
    fn fits_another_count(&self) -> bool {
        let (Some(session), Some(parts)) = (self.session(), self.media()) else { return false };
        let Some(index) = self.index() else { return false };
        let count = index::rollover_count(index);
        let highest = index::rollover_count(self.highest().unwrap_or(0));
        let ahead = (0..10).map(|more| highest.wrapping_add(more));
        let flipped = (0..32).map(|bit| count ^ 1 << bit);
        ahead
            .chain(flipped)
            .filter(|other| *other != count)
            .any(|other| session.media_mac(parts.authenticated, other).starts_with(parts.mac))
    }

    /// Whether the number and the index of a finished packet are 0 modulo R.
    fn are_0_mod_rate(&self) -> Option<(bool, bool)> {
        let Integrity::Rccm2 { rate } = self.session()?.settings.integrity else { return None };
        let index_is = self.answer.index.checked_rem(u64::from(rate)) == Some(0);
        Some((self.is_carrier(), index_is))
    }
}
