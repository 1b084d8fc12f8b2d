//! SRTP and SRTCP (RFC 3711) in ordinary Rust, a second implementation to compare with; with the
//! integrity transform whose tags carry the rollover count (RFC 4771, mode 2).
//!
//! It is written from the standards alone, for reading beside them: AES by tables of words,
//! SHA-1, HMAC, key derivation, packet layouts, and contexts whose replay window is a plain set
//! of accepted indices. Above it stand the trace format, a maker of random traces, the comparison
//! with another program's answers, and a property of whole evenings that these are judged by.
//!
//! | standard | modules |
//! |---|---|
//! | FIPS 197, FIPS 180-4, RFC 2104 | [`aes`], [`sha1`], [`hmac`] |
//! | RFC 3711, 4.1 to 4.3 | [`counter_mode`], [`mod@derive`], [`session`] |
//! | RFC 3550; RFC 3711, 3.1 and 3.4 | [`layout`] |
//! | RFC 3711, 3.3.1 and 3.3.2 | [`index`], [`replay`] |
//! | RFC 4771, 2 and 3 | [`settings::Integrity`]; tags in [`layout`], [`session`], [`context`] |
//! | RFC 4571; the sale desk | [`desk`] |
//! | the link's own rules | [`settings`], [`refusal`], [`context`] |

pub mod aes;
pub mod compare;
pub mod context;
pub mod corners;
pub mod counter_mode;
pub mod coverage;
pub mod derive;
pub mod describe;
pub mod desk;
pub mod evening;
pub mod generate;
pub mod hmac;
pub mod index;
pub mod layout;
pub mod options;
pub mod random;
pub mod refusal;
pub mod replay;
pub mod session;
pub mod settings;
pub mod sha1;
pub mod trace;
