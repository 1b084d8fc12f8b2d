//! What a set-up is given, and the list that its values must keep to.

/// Bytes of a master key.
pub const MASTER_KEY_LENGTH: usize = 16;
/// Bytes of a salt, master or session.
pub const SALT_LENGTH: usize = 14;
/// Bytes of the key of HMAC-SHA1.
pub const TAG_KEY_LENGTH: usize = 20;
/// The longest MKI.
pub const MAX_MKI_LENGTH: usize = 4;
/// The lengths that a media tag may have under RFC 3711's own transform.
pub const MEDIA_TAG_LENGTHS: [usize; 2] = [4, 10];
/// Bytes of every media tag under RCCm2.
pub const RCCM2_TAG_LENGTH: usize = 14;
/// Bytes of the rollover count that a tag carries.
pub const CARRIED_COUNT_LENGTH: usize = 4;
/// Bytes of every control tag.
pub const CONTROL_TAG_LENGTH: usize = 10;
/// The longest plain packet.
pub const MAX_PLAIN_LENGTH: usize = 2048;

/// The ciphers of the link.
#[derive(Clone, Copy, Debug, PartialEq, Eq)]
pub enum Cipher {
    /// The text stays as it is (RFC 3711, 4.1.3).
    Null,
    /// AES in counter mode (RFC 3711, 4.1.1).
    AesCounterMode,
}

impl Cipher {
    /// The cipher that a number stands for, if any does.
    pub fn from_number(number: u8) -> Option<Cipher> {
        match number {
            0 => Some(Cipher::Null),
            1 => Some(Cipher::AesCounterMode),
            _ => None,
        }
    }
}

/// The integrity transforms of media. Control has HMAC-SHA1 under each of them.
#[derive(Clone, Copy, Debug, PartialEq, Eq)]
pub enum Integrity {
    /// The tag is the front of the MAC (RFC 3711, 4.2.1).
    HmacSha1,
    /// The same, but some tags carry the rollover count before a shorter MAC (RFC 4771, mode 2).
    Rccm2 {
        /// R: the packets whose sequence number is 0 modulo R carry the count.
        rate: u16,
    },
}

impl Integrity {
    /// Whether the rate and a media tag of this length are on the list.
    pub fn admits(self, tag_length: usize) -> bool {
        match self {
            Integrity::HmacSha1 => MEDIA_TAG_LENGTHS.contains(&tag_length),
            Integrity::Rccm2 { rate } => rate > 0 && tag_length == RCCM2_TAG_LENGTH,
        }
    }

    /// Whether the tag of a packet with this sequence number carries the rollover count. The
    /// number decides, not the index: where R doesn't divide 65,536, the two differ.
    pub fn carries_count(self, number: u16) -> bool {
        match self {
            Integrity::HmacSha1 => false,
            Integrity::Rccm2 { rate } => number.checked_rem(rate) == Some(0),
        }
    }
}

/// The values of a set-up as they are given, right or wrong.
#[derive(Clone, Debug, PartialEq, Eq)]
pub struct SetUp {
    /// Bytes of the media tag.
    pub tag_length: u8,
    /// The cipher's number.
    pub cipher: u8,
    /// The stream's SSRC.
    pub ssrc: u32,
    /// Master key.
    pub master_key: Vec<u8>,
    /// Master salt.
    pub master_salt: Vec<u8>,
    /// Master key identifier.
    pub mki: Vec<u8>,
    /// The integrity transform of media.
    pub integrity: Integrity,
}

/// Where a receiver starts.
#[derive(Clone, Copy, Debug, PartialEq, Eq)]
pub struct Start {
    /// The rollover count.
    pub rollover_count: u32,
    /// The last sequence number, if it is known.
    pub last_number: Option<u16>,
}

/// The settings that a context keeps.
#[derive(Clone, Debug, PartialEq, Eq)]
pub struct Settings {
    /// The stream's SSRC.
    pub ssrc: u32,
    /// The cipher of media and control.
    pub cipher: Cipher,
    /// The integrity transform of media.
    pub integrity: Integrity,
    /// Bytes of the media tag.
    pub media_tag_length: usize,
    /// Master key identifier, put into every packet.
    pub mki: Vec<u8>,
}

impl Settings {
    /// The settings among a set-up's values; None for a cipher that is not known.
    pub fn read(values: &SetUp) -> Option<Settings> {
        Some(Settings {
            ssrc: values.ssrc,
            cipher: Cipher::from_number(values.cipher)?,
            integrity: values.integrity,
            media_tag_length: usize::from(values.tag_length),
            mki: values.mki.clone(),
        })
    }

    /// Whether every setting is on the list: a set-up's test, and each call's again.
    pub fn are_admitted(&self) -> bool {
        self.integrity.admits(self.media_tag_length) && self.mki.len() <= MAX_MKI_LENGTH
    }

    /// Bytes that protection adds to a media packet.
    pub fn media_expansion(&self) -> usize {
        self.mki.len() + self.media_tag_length
    }

    /// Bytes that protection adds to a control packet: index word, MKI and tag.
    pub fn control_expansion(&self) -> usize {
        crate::layout::INDEX_WORD_LENGTH + self.mki.len() + CONTROL_TAG_LENGTH
    }
}
