//! The refusals and their numbers.

use std::fmt;

/// Why a call gave no packet. The order is the order in which the rows are tried.
#[derive(Clone, Copy, Debug, PartialEq, Eq, PartialOrd, Ord)]
#[repr(u8)]
pub enum Refusal {
    /// Set-up values off the list, or a context that no set-up could have given.
    Setup = 1,
    /// The plain packet is over the longest.
    Long = 2,
    /// The bytes don't have the packet's layout.
    Shape = 3,
    /// Another SSRC than the context's.
    Stream = 4,
    /// The outgoing buffer is shorter than the result.
    Room = 5,
    /// Another MKI than the context's.
    Key = 6,
    /// A sender's number that doesn't come after its last one.
    Order = 7,
    /// No index is left.
    Spent = 8,
    /// Behind the replay window.
    Old = 9,
    /// The index was accepted before.
    Repeat = 10,
    /// The authentication tag is wrong.
    Forged = 11,
}

impl Refusal {
    /// Every refusal, in order.
    pub const ALL: [Refusal; 11] = [
        Refusal::Setup,
        Refusal::Long,
        Refusal::Shape,
        Refusal::Stream,
        Refusal::Room,
        Refusal::Key,
        Refusal::Order,
        Refusal::Spent,
        Refusal::Old,
        Refusal::Repeat,
        Refusal::Forged,
    ];

    /// Its number, 1 to 11.
    pub fn number(self) -> u8 {
        self as u8
    }

    /// The refusal with this number.
    pub fn from_number(number: u8) -> Option<Refusal> {
        Refusal::ALL.into_iter().find(|refusal| refusal.number() == number)
    }

    /// This refusal unless the condition holds.
    pub fn unless(self, condition: bool) -> Result<(), Refusal> {
        if condition {
            Ok(())
        } else {
            Err(self)
        }
    }
}

impl fmt::Display for Refusal {
    fn fmt(&self, f: &mut fmt::Formatter<'_>) -> fmt::Result {
        f.pad(match self {
            Refusal::Setup => "SETUP",
            Refusal::Long => "LONG",
            Refusal::Shape => "SHAPE",
            Refusal::Stream => "STREAM",
            Refusal::Room => "ROOM",
            Refusal::Key => "KEY",
            Refusal::Order => "ORDER",
            Refusal::Spent => "SPENT",
            Refusal::Old => "OLD",
            Refusal::Repeat => "REPEAT",
            Refusal::Forged => "FORGED",
        })
    }
}
