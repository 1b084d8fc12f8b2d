//! Layouts of RTP and RTCP packets (RFC 3550) and of their protected forms (RFC 3711, 3.1 and
//! 3.4; RFC 4771, 2). Readers answer None where the layout doesn't hold.

use crate::settings::{Settings, CARRIED_COUNT_LENGTH, CONTROL_TAG_LENGTH};

/// Bytes of an RTP header without sources and extension.
const RTP_FIXED_LENGTH: usize = 12;
/// Bytes of an RTCP packet that stay in clear.
pub const RTCP_CLEAR_LENGTH: usize = 8;
/// Bytes of the word with E bit and control index.
pub const INDEX_WORD_LENGTH: usize = 4;
/// The top bit of that word.
pub const E_BIT: u32 = 1 << 31;

const VERSION: u8 = 2;
const EXTENSION_BIT: u8 = 0x10;
const SOURCE_COUNT_MASK: u8 = 0x0f;

/// What is read of an RTP header (RFC 3550, 5.1 and 5.3.1).
#[derive(Clone, Copy, Debug, PartialEq, Eq)]
pub struct RtpHeader {
    /// The sequence number.
    pub number: u16,
    /// The SSRC.
    pub ssrc: u32,
    /// Bytes of the header; the payload starts behind it.
    pub length: usize,
}

impl RtpHeader {
    /// Reads the header at the front of the bytes, which must hold all of it.
    pub fn read(bytes: &[u8]) -> Option<RtpHeader> {
        let first = *bytes.first()?;
        if first >> 6 != VERSION {
            return None;
        }
        let sources_end = RTP_FIXED_LENGTH + 4 * usize::from(first & SOURCE_COUNT_MASK);
        let mut length = sources_end;
        if first & EXTENSION_BIT != 0 {
            let words = u16_at(bytes, sources_end + 2)?;
            length += 4 + 4 * usize::from(words);
        }
        if length > bytes.len() {
            return None;
        }
        Some(RtpHeader { number: u16_at(bytes, 2)?, ssrc: u32_at(bytes, 8)?, length })
    }
}

/// The SSRC of a plain control packet, if the bytes have its layout.
pub fn rtcp_ssrc(bytes: &[u8]) -> Option<u32> {
    let first = *bytes.first()?;
    let well_formed =
        bytes.len() >= RTCP_CLEAR_LENGTH && bytes.len() % 4 == 0 && first >> 6 == VERSION;
    if well_formed {
        u32_at(bytes, 4)
    } else {
        None
    }
}

/// The parts of a protected media packet (RFC 3711, figure 1). The authentication tag is the
/// rollover count, if it carries one, and the MAC.
#[derive(Clone, Copy, Debug, PartialEq, Eq)]
pub struct ProtectedMedia<'a> {
    /// The header, which stands in clear.
    pub header: RtpHeader,
    /// Header and enciphered payload: what the MAC covers, but for the rollover count.
    pub authenticated: &'a [u8],
    /// The MKI.
    pub mki: &'a [u8],
    /// The rollover count that the tag carries (RFC 4771, 2).
    pub carried_count: Option<u32>,
    /// The MAC's first bytes.
    pub mac: &'a [u8],
}

impl<'a> ProtectedMedia<'a> {
    /// Takes MKI and tag off the end; the header must fit into what is left.
    pub fn read(packet: &'a [u8], settings: &Settings) -> Option<Self> {
        let (rest, tag) = split_end(packet, settings.media_tag_length)?;
        let (authenticated, mki) = split_end(rest, settings.mki.len())?;
        let header = RtpHeader::read(authenticated)?;
        let (carried_count, mac) = if settings.integrity.carries_count(header.number) {
            (Some(u32_at(tag, 0)?), &tag[CARRIED_COUNT_LENGTH..])
        } else {
            (None, tag)
        };
        Some(ProtectedMedia { header, authenticated, mki, carried_count, mac })
    }
}

/// The parts of a protected control packet (RFC 3711, figure 2).
#[derive(Clone, Copy, Debug, PartialEq, Eq)]
pub struct ProtectedControl<'a> {
    /// The SSRC.
    pub ssrc: u32,
    /// The control packet, its text enciphered where E says so.
    pub rtcp: &'a [u8],
    /// The E bit.
    pub is_enciphered: bool,
    /// The control index.
    pub index: u64,
    /// Everything before the MKI.
    pub authenticated: &'a [u8],
    /// The MKI.
    pub mki: &'a [u8],
    /// The authentication tag.
    pub tag: &'a [u8],
}

impl<'a> ProtectedControl<'a> {
    /// Takes index word, MKI and tag off the end; what is left must have RTCP's layout.
    pub fn read(packet: &'a [u8], settings: &Settings) -> Option<Self> {
        let (rest, tag) = split_end(packet, CONTROL_TAG_LENGTH)?;
        let (authenticated, mki) = split_end(rest, settings.mki.len())?;
        let (rtcp, _) = split_end(authenticated, INDEX_WORD_LENGTH)?;
        let word = u32_at(authenticated, rtcp.len())?;
        Some(ProtectedControl {
            ssrc: rtcp_ssrc(rtcp)?,
            rtcp,
            is_enciphered: word & E_BIT != 0,
            index: u64::from(word & !E_BIT),
            authenticated,
            mki,
            tag,
        })
    }
}

/// The word that a control packet carries.
pub fn index_word(is_enciphered: bool, index: u64) -> [u8; INDEX_WORD_LENGTH] {
    let e_bit = if is_enciphered { E_BIT } else { 0 };
    (e_bit | (index as u32 & !E_BIT)).to_be_bytes()
}

/// Everything but the last `length` bytes, and these.
fn split_end(bytes: &[u8], length: usize) -> Option<(&[u8], &[u8])> {
    let front = bytes.len().checked_sub(length)?;
    Some(bytes.split_at(front))
}

fn u16_at(bytes: &[u8], at: usize) -> Option<u16> {
    let field = bytes.get(at..at + 2)?;
    Some(field.iter().fold(0, |sum, byte| sum << 8 | u16::from(*byte)))
}

fn u32_at(bytes: &[u8], at: usize) -> Option<u32> {
    let field = bytes.get(at..at + 4)?;
    Some(field.iter().fold(0, |sum, byte| sum << 8 | u32::from(*byte)))
}
