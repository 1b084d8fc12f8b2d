//! The whole evening, a property of a receiver's run.
//!
//! Take the media packets of one sender's run, made under the receiver's set-up, delivered in some
//! order, lost or repeated at will, with strange bytes and other calls between them. Suppose that
//! every delivery keeps up with those before it ([`keeps_up`]) and finds room, that no sequence
//! number was given to the receiver at set-up, and that every strange string received as media is
//! refused. Then the media indices let in are precisely those delivered, each at its first
//! delivery, with the packet that was sent.

mod corners;
mod judge;
mod runs;
mod tally;

pub use judge::{judge, Verdict};
pub use tally::Tally;

use crate::index;
use crate::replay::WINDOW_LENGTH;

/// An evening: a trace of one sender and one receiver, and what each of its records is.
#[derive(Clone, Debug, PartialEq, Eq)]
pub struct Evening {
    /// The records.
    pub trace: Vec<u8>,
    /// One for each record.
    pub roles: Vec<Role>,
}

/// What a record of an evening is.
#[derive(Clone, Copy, Debug, PartialEq, Eq)]
pub enum Role {
    /// A set-up, a call on control, or a send that is refused.
    Other,
    /// Sends a media packet.
    Send {
        /// Its index.
        index: u64,
    },
    /// Delivers a packet to the receiver, for the first time or again.
    Delivery {
        /// The place of the record that sends it, counting from 0.
        sent: usize,
    },
    /// Receives as media what is no delivery.
    Strange,
}

/// An estimate finds every index that is less far ahead than this.
const REACH: u64 = 1 << 15;

/// Whether a delivery at this index keeps up with the highest index delivered before: behind by
/// less than the window, or ahead by less than 32,768. The first one has the count that the
/// receiver was started with. A packet that carries its own count may be ahead by any amount, and
/// as the first one it may have any count.
pub fn keeps_up(carries_count: bool, started: u32, highest: Option<u64>, index: u64) -> bool {
    match highest {
        None => carries_count || index::rollover_count(index) == started,
        Some(highest) if index <= highest => highest - index < WINDOW_LENGTH,
        Some(highest) => carries_count || index - highest < REACH,
    }
}
