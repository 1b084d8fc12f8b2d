//! The contenders, each behind the same two calls.

#[cfg(feature = "libsrtp2")]
mod libsrtp2;
mod proved;
mod quick;
mod second;

use crate::quick::{OneBlock, SharedRounds, TwoBlocks};
use reference::refusal::Refusal;
use reference::settings::Start;

/// Both ends of one stream: a sender and a receiver under the same keys. A call reads one buffer
/// and writes the start of another; it answers the length of the result.
pub trait Link {
    /// Protects a media packet.
    fn protect(&mut self, packet: &[u8], out: &mut [u8]) -> Answer;
    /// Opens a protected media packet.
    fn open(&mut self, packet: &[u8], out: &mut [u8]) -> Answer;
}

/// The length of a finished packet, or why there is none.
pub type Answer = Result<usize, Refusal>;

/// What a link is set up with beside key, salt, SSRC and AES, which are the same in all that is
/// measured.
#[derive(Clone, Copy, PartialEq, Eq)]
pub struct Settings {
    /// Bytes of the media tag.
    pub tag_length: usize,
    /// Master key identifier.
    pub mki: &'static [u8],
    /// Where the receiver starts.
    pub start: Start,
}

/// One contender.
#[derive(Clone, Copy)]
pub struct Implementation {
    /// Its name in the tables.
    pub name: &'static str,
    /// A link with nothing sent and nothing received; a closed one for settings off the list.
    pub set_up: fn(&Settings) -> Box<dyn Link>,
}

/// SSRC of the stream.
pub const SSRC: u32 = 0x0a0b_0c0d;
/// Bytes of the tag of every packet.
pub const TAG_LENGTH: usize = 10;
const MASTER_KEY: [u8; 16] = *b"0123456789abcdef";
const MASTER_SALT: [u8; 14] = *b"fedcba98765432";

/// A tag of 10 bytes, no MKI, rollover count 0 and no last number: how every packet is measured
/// that is not refused.
pub const PLAIN: Settings = Settings {
    tag_length: TAG_LENGTH,
    mki: &[],
    start: Start { rollover_count: 0, last_number: None },
};

/// The proved library, through its boundary.
pub const PROVED: Implementation = Implementation { name: "proved", set_up: proved::set_up };
/// Ordinary Rust that is written to be read, and that knows all settings.
pub const REFERENCE: Implementation = Implementation { name: "reference/", set_up: second::set_up };
/// Ordinary Rust in its quickest forms.
pub const QUICK: [Implementation; 3] = [
    Implementation { name: "Rust, one block", set_up: quick::set_up::<OneBlock> },
    Implementation { name: "Rust, two blocks", set_up: quick::set_up::<TwoBlocks> },
    Implementation { name: "Rust, shared rounds", set_up: quick::set_up::<SharedRounds> },
];
/// libsrtp2, where it is built in.
#[cfg(feature = "libsrtp2")]
pub const LIBSRTP2: Option<Implementation> =
    Some(Implementation { name: "libsrtp2", set_up: libsrtp2::set_up });
/// libsrtp2, where it is built in.
#[cfg(not(feature = "libsrtp2"))]
pub const LIBSRTP2: Option<Implementation> = None;

/// What is to be said of libsrtp2 above the tables.
pub fn libsrtp2_version() -> String {
    #[cfg(feature = "libsrtp2")]
    return libsrtp2::version();
    #[cfg(not(feature = "libsrtp2"))]
    "libsrtp2 not measured".to_string()
}
