//! SRTP and SRTCP packet protection (RFC 3711, and RFC 4771's integrity transform) for one stream: safe Rust over a library that is proved
//! to do what the RFCs say.
//!
//! A [`Sender`] protects the RTP and RTCP packets of one SSRC, a [`Receiver`] opens them. Each call reads one buffer and writes another. It
//! answers a finished packet, [`Packet`], which stands at the start of the outgoing buffer, or a [`Refusal`], which changes nothing.
//!
//! ```
//! use tindrabek::{Profile, Receiver, Refusal, Sender, SetUp};
//!
//! let key = [1u8; 16];
//! let salt = [2u8; 14];
//! let set_up = SetUp { ssrc: 0x0a0b0c0d, key: &key, salt: &salt, mki: &[], profile: Profile::default() };
//! let mut sender = Sender::set_up(&set_up)?;
//! let mut receiver = Receiver::set_up(&set_up, 0, None)?;
//!
//! let rtp = [0x80, 0, 0, 7, 0, 0, 0, 0, 0x0a, 0x0b, 0x0c, 0x0d, b'h', b'i'];
//! let mut protected = [0u8; tindrabek::MAX_RESULT_LEN];
//! let sent = sender.send_media(&rtp, &mut protected)?;
//! assert_eq!((sent.len, sent.index), (24, 7));
//!
//! let mut opened = [0u8; tindrabek::MAX_RESULT_LEN];
//! let received = receiver.receive_media(&protected[..sent.len], &mut opened)?;
//! assert_eq!(&opened[..received.len], &rtp);
//! assert_eq!(receiver.receive_media(&protected[..sent.len], &mut opened), Err(Refusal::Repeat));
//! # Ok::<(), Refusal>(())
//! ```
//!
//! A context holds session keys. Its memory is cleared when it is dropped; copies that a call or a move leaves on the stack are not.
use core::fmt;

mod boundary;
#[cfg(test)]
mod boundary_tests;
mod clear;

/// Bytes of a master key.
pub const KEY_LEN: usize = 16;
/// Bytes of a master salt.
pub const SALT_LEN: usize = 14;
/// Bytes of the longest MKI.
pub const MAX_MKI_LEN: usize = 4;
/// Bytes of a media tag with [`Integrity::Rccm2`].
pub const RCC_TAG_LEN: usize = 14;
/// Bytes of the longest plain packet.
pub const MAX_PACKET_LEN: usize = 2048;
/// A buffer of so many bytes has room for every result: the longest packet, the longest MKI, and the longest media tag, which is as long as
/// control's index word and tag.
pub const MAX_RESULT_LEN: usize = MAX_PACKET_LEN + MAX_MKI_LEN + RCC_TAG_LEN;

/// Why a call refuses, in the order in which the reasons are looked at. A refused call changes neither context nor outgoing buffer.
#[derive(Clone, Copy, PartialEq, Eq, Debug, Hash)]
pub enum Refusal {
    /// Set-up values off the list, or a call on a closed context.
    Setup,
    /// The plain packet is, or the protected one would give, over 2,048 bytes.
    Long,
    /// No RTP, RTCP, SRTP or SRTCP layout.
    Shape,
    /// The packet's SSRC is not the context's.
    Stream,
    /// The outgoing buffer is shorter than the result.
    Room,
    /// The packet's MKI is not the context's.
    Key,
    /// The sequence number is the last one, or 32,768 or more ahead of it.
    Order,
    /// Media index above 2^48 - 1, or 2^31 control packets sent already.
    Spent,
    /// Index below 0, or more than 1,023 behind the highest.
    Old,
    /// Index accepted already.
    Repeat,
    /// The authentication tag is wrong.
    Forged,
}

impl Refusal {
    /// Every refusal; the one with number n stands at n - 1.
    pub const ALL: [Refusal; 11] = [
        Refusal::Setup,
        Refusal::Long,
        Refusal::Shape,
        Refusal::Stream,
        Refusal::Room,
        Refusal::Key,
        Refusal::Order,
        Refusal::Spent,
        Refusal::Old,
        Refusal::Repeat,
        Refusal::Forged,
    ];

    /// The refusal with this number, 1 to 11.
    pub fn from_number(number: u32) -> Option<Refusal> {
        let at = usize::try_from(number).ok()?.checked_sub(1)?;
        Refusal::ALL.get(at).copied()
    }

    /// The number of this refusal, 1 to 11, as C has it.
    pub fn number(self) -> u32 {
        self as u32 + 1
    }

    /// Its name, as C has it.
    pub fn name(self) -> &'static str {
        [
            "SETUP", "LONG", "SHAPE", "STREAM", "ROOM", "KEY", "ORDER", "SPENT", "OLD", "REPEAT",
            "FORGED",
        ][self as usize]
    }
}

impl fmt::Display for Refusal {
    fn fmt(&self, f: &mut fmt::Formatter<'_>) -> fmt::Result {
        let why = match self {
            Refusal::Setup => "these values make no context",
            Refusal::Long => "the packet is too long",
            Refusal::Shape => "the packet has no such layout",
            Refusal::Stream => "the packet is of another stream",
            Refusal::Room => "the outgoing buffer is too short",
            Refusal::Key => "the packet names another key",
            Refusal::Order => "the sequence number is out of order",
            Refusal::Spent => "there is no index left",
            Refusal::Old => "the packet is too old",
            Refusal::Repeat => "the packet was accepted already",
            Refusal::Forged => "the authentication tag is wrong",
        };
        write!(f, "{} ({why})", self.name())
    }
}

impl std::error::Error for Refusal {}

/// What the payload is enciphered with.
#[derive(Clone, Copy, PartialEq, Eq, Debug)]
pub enum Cipher {
    /// Nothing: packets are authenticated only.
    Null,
    /// AES-128 in counter mode.
    Aes,
}

/// What makes the tag of a media packet. A control packet always has HMAC-SHA1's.
#[derive(Clone, Copy, PartialEq, Eq, Debug)]
pub enum Integrity {
    /// HMAC-SHA1, as in RFC 3711.
    HmacSha1,
    /// RFC 4771's transform in mode RCCm2: the tag of each packet whose sequence number is 0 modulo the rate, 1 to 65,535, carries the
    /// rollover counter.
    Rccm2 { rate: u16 },
}

/// What packets are protected with.
#[derive(Clone, Copy, PartialEq, Eq, Debug)]
pub struct Profile {
    pub cipher: Cipher,
    pub integrity: Integrity,
    /// The length of the media tag: 4 or 10, with [`Integrity::Rccm2`] [`RCC_TAG_LEN`]. The control tag has 10 bytes.
    pub tag_len: usize,
}

/// RFC 3711's default: AES-128 in counter mode, and HMAC-SHA1 with a tag of 10 bytes.
impl Default for Profile {
    fn default() -> Profile {
        Profile { cipher: Cipher::Aes, integrity: Integrity::HmacSha1, tag_len: 10 }
    }
}

/// What a sender and the receivers of its stream are set up with.
#[derive(Clone, Copy)]
pub struct SetUp<'a> {
    pub ssrc: u32,
    /// The master key, [`KEY_LEN`] bytes.
    pub key: &'a [u8],
    /// The master salt, [`SALT_LEN`] bytes.
    pub salt: &'a [u8],
    /// The master key identifier that packets carry: 0 to [`MAX_MKI_LEN`] bytes.
    pub mki: &'a [u8],
    pub profile: Profile,
}

/// A finished packet: it is the first `len` bytes of the outgoing buffer. The bytes behind it are as they were.
#[derive(Clone, Copy, PartialEq, Eq, Debug)]
pub struct Packet {
    pub len: usize,
    /// 65,536 times the rollover counter plus the sequence number; for control the SRTCP index.
    pub index: u64,
}

/// Protects the packets of one stream. It can't be copied: two senders with one state would repeat keystream. For the same reason no two
/// senders may be set up with one key, salt and SSRC, which the library can't see.
pub struct Sender(boundary::Sender);

/// Opens the packets of one stream, and accepts none twice.
pub struct Receiver(boundary::Receiver);

fn plain_profile(profile: Profile) -> boundary::Profile {
    let cipher = match profile.cipher {
        Cipher::Null => 0,
        Cipher::Aes => 1,
    };
    let (integrity, rate) = match profile.integrity {
        Integrity::HmacSha1 => (0, 0),
        Integrity::Rccm2 { rate } => (1, rate),
    };
    boundary::Profile { cipher, integrity, rate, tag_len: profile.tag_len }
}

fn refusal_of(number: u32) -> Refusal {
    Refusal::from_number(number).expect("the library gives 0 or the number of a refusal")
}

fn packet_of(answer: boundary::Answer) -> Result<Packet, Refusal> {
    match answer.number {
        0 => Ok(Packet { len: answer.len, index: answer.index }),
        number => Err(refusal_of(number)),
    }
}

impl Sender {
    /// A sender with rollover counter 0 and nothing sent, or [`Refusal::Setup`].
    pub fn set_up(s: &SetUp) -> Result<Sender, Refusal> {
        // SAFETY: each pointer goes with the length of its slice.
        let made = unsafe {
            boundary::tindrabek_sender_set_up(
                s.ssrc,
                s.key.as_ptr(),
                s.key.len(),
                s.salt.as_ptr(),
                s.salt.len(),
                s.mki.as_ptr(),
                s.mki.len(),
                plain_profile(s.profile),
            )
        };
        match made.number {
            0 => Ok(Sender(made.context)),
            number => Err(refusal_of(number)),
        }
    }

    /// The closed sender: every call on it is [`Refusal::Setup`].
    pub fn closed() -> Sender {
        // SAFETY: it takes nothing.
        Sender(unsafe { boundary::tindrabek_sender_closed() })
    }

    /// Protects an RTP packet into `out`, which needs the packet's length and that of MKI and tag.
    pub fn send_media(&mut self, packet: &[u8], out: &mut [u8]) -> Result<Packet, Refusal> {
        // SAFETY: the context is ours alone, each pointer goes with the length of its slice, and `&mut` keeps them apart.
        packet_of(unsafe {
            boundary::tindrabek_send_media(
                &mut self.0,
                packet.as_ptr(),
                packet.len(),
                out.as_mut_ptr(),
                out.len(),
            )
        })
    }

    /// Protects an RTCP packet into `out`, which needs the packet's length, 14 bytes and the length of the MKI.
    pub fn send_control(&mut self, packet: &[u8], out: &mut [u8]) -> Result<Packet, Refusal> {
        // SAFETY: as in `send_media`.
        packet_of(unsafe {
            boundary::tindrabek_send_control(
                &mut self.0,
                packet.as_ptr(),
                packet.len(),
                out.as_mut_ptr(),
                out.len(),
            )
        })
    }
}

impl Receiver {
    /// A receiver at a rollover counter and, if it is known, the last sequence number; or [`Refusal::Setup`].
    ///
    /// With [`Integrity::Rccm2`] the index of a packet that carries the rollover counter is read from it. So a receiver without a last
    /// number may start at any rollover counter: where it is wrong, packets are refused, but for a chance match of the tag, up to the next
    /// one that carries it.
    pub fn set_up(s: &SetUp, rollover: u32, last: Option<u16>) -> Result<Receiver, Refusal> {
        // SAFETY: each pointer goes with the length of its slice.
        let made = unsafe {
            boundary::tindrabek_receiver_set_up(
                s.ssrc,
                s.key.as_ptr(),
                s.key.len(),
                s.salt.as_ptr(),
                s.salt.len(),
                s.mki.as_ptr(),
                s.mki.len(),
                plain_profile(s.profile),
                rollover,
                u32::from(last.is_some()),
                last.unwrap_or(0),
            )
        };
        match made.number {
            0 => Ok(Receiver(made.context)),
            number => Err(refusal_of(number)),
        }
    }

    /// The closed receiver: every call on it is [`Refusal::Setup`].
    pub fn closed() -> Receiver {
        // SAFETY: it takes nothing.
        Receiver(unsafe { boundary::tindrabek_receiver_closed() })
    }

    /// Opens an SRTP packet into `out`, which needs the length of the plain packet.
    pub fn receive_media(&mut self, packet: &[u8], out: &mut [u8]) -> Result<Packet, Refusal> {
        // SAFETY: as in `Sender::send_media`.
        packet_of(unsafe {
            boundary::tindrabek_receive_media(
                &mut self.0,
                packet.as_ptr(),
                packet.len(),
                out.as_mut_ptr(),
                out.len(),
            )
        })
    }

    /// Opens an SRTCP packet into `out`, which needs the length of the plain packet.
    pub fn receive_control(&mut self, packet: &[u8], out: &mut [u8]) -> Result<Packet, Refusal> {
        // SAFETY: as in `Sender::send_media`.
        packet_of(unsafe {
            boundary::tindrabek_receive_control(
                &mut self.0,
                packet.as_ptr(),
                packet.len(),
                out.as_mut_ptr(),
                out.len(),
            )
        })
    }
}

// The keys are not shown.
impl fmt::Debug for Sender {
    fn fmt(&self, f: &mut fmt::Formatter<'_>) -> fmt::Result {
        f.debug_struct("Sender").field("ssrc", &self.0.session.ssrc).finish_non_exhaustive()
    }
}

impl fmt::Debug for Receiver {
    fn fmt(&self, f: &mut fmt::Formatter<'_>) -> fmt::Result {
        f.debug_struct("Receiver").field("ssrc", &self.0.session.ssrc).finish_non_exhaustive()
    }
}
