//! Corners of a replay window that is kept as a row of words and shifted as H rises: jumps about
//! whole words and about the window's length, and marks found again where a shift has left them.

use super::event::{Corner, Event};
use crate::refusal::Refusal::Repeat;
use crate::trace::Call::{ReceiveControl, ReceiveMedia};
use crate::trace::FINISHED;

/// Marks that a word of the row holds.
const WORD_LENGTH: i64 = 64;

/// Each corner of media and of control.
macro_rules! of_both_kinds {
    ($($name:literal: $holds:expr,)*) => {
        &[$(
            (concat!("receive media: ", $name), |e| e.call == ReceiveMedia && $holds(e)),
            (concat!("receive control: ", $name), |e| e.call == ReceiveControl && $holds(e)),
        )*]
    };
}

pub const CORNERS: &[Corner] = of_both_kinds! {
    "H rises by 63": rises_by::<63>,
    "H rises by 64": rises_by::<64>,
    "H rises by 65": rises_by::<65>,
    "H rises by 127": rises_by::<127>,
    "H rises by 128": rises_by::<128>,
    "H rises by 1,022": rises_by::<1022>,
    "H rises by 1,023": rises_by::<1023>,
    "H rises by 1,024": rises_by::<1024>,
    "H rises by 1,025": rises_by::<1025>,
    "REPEAT over 960 behind": |e| repeats_behind(e, |behind| behind > 960),
    "REPEAT at the first place of a word": |e| {
        repeats_behind(e, |behind| behind > 0 && behind % WORD_LENGTH == 0)
    },
    "REPEAT at the last place of a word": |e| {
        repeats_behind(e, |behind| behind % WORD_LENGTH == WORD_LENGTH - 1)
    },
    "REPEAT of the mark next to H, over a word behind": |e: &Event| {
        repeats_behind(e, |behind| behind >= WORD_LENGTH) && has_no_mark_to_h(e)
    },
};

fn rises_by<const RISE: i64>(event: &Event) -> bool {
    event.answer.outcome == FINISHED && event.distance() == Some(RISE)
}

/// Whether the packet is a REPEAT, so far behind H.
fn repeats_behind(event: &Event, is_there: fn(i64) -> bool) -> bool {
    event.refused(event.call, Repeat) && event.distance().is_some_and(|ahead| is_there(-ahead))
}

/// Whether H is the first index accepted after the packet's own: then H rose from there in one
/// jump, or the packet came late.
fn has_no_mark_to_h(event: &Event) -> bool {
    let list = event.before.replay_list(event.call);
    let next = event.index().and_then(|index| list.accepted.range(index + 1..).next());
    next.is_some() && next == list.highest.as_ref()
}
