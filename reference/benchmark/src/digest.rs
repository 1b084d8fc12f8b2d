//! The SHA-1 digest alone.

use crate::clock::timed;
use crate::report::{head, micros, ratio_and_spread, row};
use crate::rounds::interleaved;
use crate::sha1_forms::{Digest, FORMS};
use reference::random::Random;
use reference::sha1::{Sha1, DIGEST_LENGTH};
use std::hint::black_box;
use std::time::Duration;

/// A packet of 1,200 bytes, and what the tag covers of it and of one of 172 bytes, which has the
/// rollover count behind it.
const LENGTHS: [usize; 3] = [1200, 1204, 176];
const ROUNDS: usize = 200;
const DIGESTS: usize = 1000;

#[repr(C)]
struct ProvedDigest {
    bytes: [u8; DIGEST_LENGTH],
}

extern "C" {
    fn tindrabek_sha1(message: *const u8, length: usize) -> ProvedDigest;
}

fn proved(message: &[u8]) -> [u8; DIGEST_LENGTH] {
    // SAFETY: the pointer goes with the length of its slice.
    unsafe { tindrabek_sha1(message.as_ptr(), message.len()) }.bytes
}

/// Digests of each length, proved beside ordinary Rust in several forms.
pub fn print() {
    println!("### SHA-1 alone\n");
    println!("{ROUNDS} rounds of {DIGESTS} digests, beside forms of ordinary Rust.\n");
    head(&["bytes", "proved, µs", "beside", "µs", "rate", "middle half", "all rounds"]);
    let mut contenders: Vec<(&str, Digest)> =
        vec![("proved", proved), ("reference/", Sha1::digest)];
    contenders.extend(FORMS);
    for length in LENGTHS {
        let message = Random::new(length as u64).bytes(length);
        for (name, digest) in &contenders {
            assert_eq!(digest(&message), Sha1::digest(&message), "{length} bytes, {name}");
        }
        let times = interleaved(ROUNDS, contenders.len(), |at| turn(contenders[at].1, &message));
        for ((name, _), ordinary) in contenders.iter().zip(&times).skip(1) {
            let [rate, half, all] = ratio_and_spread(ordinary, &times[0]);
            let (own, other) = (micros(&times[0], DIGESTS), micros(ordinary, DIGESTS));
            row(&[&length.to_string(), &own, name, &other, &rate, &half, &all]);
        }
    }
    println!();
}

fn turn(digest: Digest, message: &[u8]) -> Duration {
    let work = || (0..DIGESTS).for_each(|_| _ = black_box(digest(black_box(message))));
    timed(work).0
}
