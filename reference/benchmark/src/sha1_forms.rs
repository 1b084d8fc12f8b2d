//! SHA-1 in ordinary Rust again, in the forms of the block that were quickest: what the proved one
//! is measured against beside the second implementation, which is written to be read. The quick
//! contexts take the last of them.

use reference::sha1::{BLOCK_LENGTH, DIGEST_LENGTH, INITIAL};

/// The hash value between two blocks (FIPS 180-4's H).
pub type State = [u32; 5];

/// One block's work.
pub type Compress = fn(State, &[u8; BLOCK_LENGTH]) -> State;

/// A message's digest.
pub type Digest = fn(&[u8]) -> [u8; DIGEST_LENGTH];

/// Each form, and what it is called.
pub const FORMS: [(&str, Digest); 3] = [
    ("eighty words", |message| digest(message, eighty_words)),
    ("ring, rounds by fours", |message| digest(message, ring_by_fours)),
    ("ring, rounds written out", |message| digest(message, ring_written_out)),
];

/// K_t, for twenty rounds each (FIPS 180-4, 4.2.1).
const K: [u32; 4] = [0x5a827999, 0x6ed9eba1, 0x8f1bbcdc, 0xca62c1d6];

/// The digest of a message, by blocks of one form.
#[inline(always)]
fn digest(message: &[u8], compress: Compress) -> [u8; DIGEST_LENGTH] {
    bytes_of(finished(INITIAL, 0, message, [], compress))
}

/// The state behind a message that ends here: `before` bytes of it, whole blocks, are in the given
/// state, and `message` and `end` follow. Whole blocks are read where they stand, and only the
/// last one or two are put together.
#[inline(always)]
pub fn finished<const N: usize>(
    state: State,
    before: usize,
    message: &[u8],
    end: [u8; N],
    compress: Compress,
) -> State {
    let whole = |state, block: &[u8]| compress(state, block.try_into().expect("a whole block"));
    let blocks = message.chunks_exact(BLOCK_LENGTH);
    let rest = blocks.remainder();
    let state = blocks.fold(state, whole);
    let mut last = [0; 2 * BLOCK_LENGTH];
    let filled = rest.len() + N;
    last[..rest.len()].copy_from_slice(rest);
    last[rest.len()..filled].copy_from_slice(&end);
    last[filled] = 0x80;
    let length = if filled < BLOCK_LENGTH - 8 { BLOCK_LENGTH } else { 2 * BLOCK_LENGTH };
    let bits = 8 * (before + message.len() + N) as u64;
    last[length - 8..length].copy_from_slice(&bits.to_be_bytes());
    last[..length].chunks_exact(BLOCK_LENGTH).fold(state, whole)
}

/// The digest that a message's last state is.
pub fn bytes_of(state: State) -> [u8; DIGEST_LENGTH] {
    let mut digest = [0; DIGEST_LENGTH];
    for (bytes, word) in digest.chunks_exact_mut(4).zip(state) {
        bytes.copy_from_slice(&word.to_be_bytes());
    }
    digest
}

#[inline(always)]
fn words(block: &[u8; BLOCK_LENGTH]) -> [u32; 16] {
    let mut words = [0; 16];
    for (word, bytes) in words.iter_mut().zip(block.chunks_exact(4)) {
        *word = u32::from_be_bytes(bytes.try_into().expect("four bytes"));
    }
    words
}

#[inline(always)]
fn sum(state: State, before: State) -> State {
    std::array::from_fn(|i| state[i].wrapping_add(before[i]))
}

#[inline(always)]
fn ch(x: u32, y: u32, z: u32) -> u32 {
    z ^ (x & (y ^ z))
}

#[inline(always)]
fn parity(x: u32, y: u32, z: u32) -> u32 {
    x ^ y ^ z
}

/// The two parts have no bit in common, so that the sum of a round can take them one by one: what
/// suits the rounds by fours.
#[inline(always)]
fn maj(x: u32, y: u32, z: u32) -> u32 {
    (x & y).wrapping_add(z & (x ^ y))
}

/// As FIPS 180-4 has it (4.1.1): what suits the rounds that are written out.
#[inline(always)]
fn maj_by_pairs(x: u32, y: u32, z: u32) -> u32 {
    (x & y) ^ (x & z) ^ (y & z)
}

#[inline(always)]
fn by_fours(
    words: &[u32],
    function: impl Fn(u32, u32, u32) -> u32,
    constant: u32,
    state: State,
) -> State {
    let round = |[a, b, c, d, e]: State, word: u32| {
        let sum = a.rotate_left(5).wrapping_add(function(b, c, d)).wrapping_add(e);
        [sum.wrapping_add(constant).wrapping_add(word), a, b.rotate_left(30), c, d]
    };
    let mut state = state;
    for four in words.chunks_exact(4) {
        state = round(round(round(round(state, four[0]), four[1]), four[2]), four[3]);
    }
    state
}

/// The whole schedule first.
fn eighty_words(before: State, block: &[u8; BLOCK_LENGTH]) -> State {
    let mut w = [0; 80];
    w[..16].copy_from_slice(&words(block));
    for group in [16, 32, 48, 64] {
        for t in group..group + 16 {
            w[t] = (w[t - 3] ^ w[t - 8] ^ w[t - 14] ^ w[t - 16]).rotate_left(1);
        }
    }
    let state = by_fours(&w[..20], ch, K[0], before);
    let state = by_fours(&w[20..40], parity, K[1], state);
    let state = by_fours(&w[40..60], maj, K[2], state);
    sum(by_fours(&w[60..], parity, K[3], state), before)
}

/// The form that the proved library has.
fn ring_by_fours(before: State, block: &[u8; BLOCK_LENGTH]) -> State {
    let advance = |w: &mut [u32; 16]| {
        for i in 0..16 {
            w[i] = (w[(i + 13) % 16] ^ w[(i + 8) % 16] ^ w[(i + 2) % 16] ^ w[i]).rotate_left(1);
        }
    };
    let mut w = words(block);
    let state = by_fours(&w, ch, K[0], before);
    advance(&mut w);
    let state = by_fours(&w[..4], ch, K[0], state);
    let state = by_fours(&w[4..], parity, K[1], state);
    advance(&mut w);
    let state = by_fours(&w[..8], parity, K[1], state);
    let state = by_fours(&w[8..], maj, K[2], state);
    advance(&mut w);
    let state = by_fours(&w[..12], maj, K[2], state);
    let state = by_fours(&w[12..], parity, K[3], state);
    advance(&mut w);
    sum(by_fours(&w, parity, K[3], state), before)
}

/// No loop at all: each round takes its word when it needs it, and the variables change their
/// parts where the other forms move their values.
pub fn ring_written_out(before: State, block: &[u8; BLOCK_LENGTH]) -> State {
    let mut w = words(block);
    let [mut a, mut b, mut c, mut d, mut e] = before;
    let mut word = |t: usize| {
        if t >= 16 {
            let mixed = w[(t + 13) % 16] ^ w[(t + 8) % 16] ^ w[(t + 2) % 16] ^ w[t % 16];
            w[t % 16] = mixed.rotate_left(1);
        }
        w[t % 16]
    };
    macro_rules! round {
        ($function:ident, $t:expr, $a:ident $b:ident $c:ident $d:ident $e:ident) => {
            $e = $e.wrapping_add(word($t)).wrapping_add(K[$t / 20]);
            $e = $e.wrapping_add($function($b, $c, $d)).wrapping_add($a.rotate_left(5));
            $b = $b.rotate_left(30);
        };
    }
    macro_rules! five {
        ($function:ident: $($t:expr),*) => {$(
            round!($function, $t, a b c d e);
            round!($function, $t + 1, e a b c d);
            round!($function, $t + 2, d e a b c);
            round!($function, $t + 3, c d e a b);
            round!($function, $t + 4, b c d e a);
        )*};
    }
    five!(ch: 0, 5, 10, 15);
    five!(parity: 20, 25, 30, 35);
    five!(maj_by_pairs: 40, 45, 50, 55);
    five!(parity: 60, 65, 70, 75);
    sum([a, b, c, d, e], before)
}
