//! Ordinary Rust in its quickest forms, where reference/ is written to be read: no special
//! instructions and nothing unsafe, but AES by tables of words over several blocks at once, SHA-1
//! written out, HMAC's key states kept, and contexts that change in place.
//!
//! It covers what is timed: media under the plain settings. The forms share all but counter mode.

mod aes;
mod context;
mod counter_mode;
mod hmac;
mod window;

pub use context::{Receiver, Sender};
pub use counter_mode::{CounterMode, OneBlock, SharedRounds, TwoBlocks};
