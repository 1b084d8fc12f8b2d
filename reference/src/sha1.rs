//! SHA-1 (FIPS 180-4, 5.1.1 and 6.1).

/// Bytes of a message block.
pub const BLOCK_LENGTH: usize = 64;
/// Bytes of a digest.
pub const DIGEST_LENGTH: usize = 20;

/// H(0), FIPS 180-4, 5.3.1.
pub const INITIAL: [u32; 5] = [0x67452301, 0xefcdab89, 0x98badcfe, 0x10325476, 0xc3d2e1f0];

/// Where the 64-bit length stands in the last block.
const LENGTH_PLACE: usize = BLOCK_LENGTH - 8;

/// A hash under way: the state after the whole blocks so far, and the bytes of the next one.
#[derive(Clone, Debug, PartialEq, Eq)]
pub struct Sha1 {
    state: [u32; 5],
    block: [u8; BLOCK_LENGTH],
    length: u64,
}

impl Default for Sha1 {
    fn default() -> Self {
        Self::new()
    }
}

impl Sha1 {
    /// Nothing hashed yet.
    pub fn new() -> Sha1 {
        Sha1 { state: INITIAL, block: [0; BLOCK_LENGTH], length: 0 }
    }

    /// The digest of one message.
    pub fn digest(message: &[u8]) -> [u8; DIGEST_LENGTH] {
        let mut hash = Sha1::new();
        hash.update(message);
        hash.finish()
    }

    /// Takes in the next bytes of the message.
    pub fn update(&mut self, mut bytes: &[u8]) {
        while !bytes.is_empty() {
            let filled = self.filled();
            let (now, later) = bytes.split_at(bytes.len().min(BLOCK_LENGTH - filled));
            self.block[filled..filled + now.len()].copy_from_slice(now);
            self.length += now.len() as u64;
            if self.filled() == 0 {
                self.state = compress(self.state, &self.block);
            }
            bytes = later;
        }
    }

    /// Pads (FIPS 180-4, 5.1.1) and gives the digest.
    pub fn finish(mut self) -> [u8; DIGEST_LENGTH] {
        let bits = self.length.wrapping_mul(8);
        self.update(&[0x80]);
        let zeros = (BLOCK_LENGTH + LENGTH_PLACE - self.filled()) % BLOCK_LENGTH;
        self.update(&[0; BLOCK_LENGTH][..zeros]);
        self.update(&bits.to_be_bytes());
        let mut digest = [0; DIGEST_LENGTH];
        for (bytes, word) in digest.chunks_exact_mut(4).zip(self.state) {
            bytes.copy_from_slice(&word.to_be_bytes());
        }
        digest
    }

    /// Bytes of the block that is not full yet.
    fn filled(&self) -> usize {
        (self.length % BLOCK_LENGTH as u64) as usize
    }
}

/// One block's work (FIPS 180-4, 6.1.2).
fn compress(state: [u32; 5], block: &[u8; BLOCK_LENGTH]) -> [u32; 5] {
    let schedule = message_schedule(block);
    let working = rounds(state, &schedule[0..20], 0x5a827999, |x, y, z| (x & y) ^ (!x & z));
    let working = rounds(working, &schedule[20..40], 0x6ed9eba1, |x, y, z| x ^ y ^ z);
    let working =
        rounds(working, &schedule[40..60], 0x8f1bbcdc, |x, y, z| (x & y) ^ (x & z) ^ (y & z));
    let working = rounds(working, &schedule[60..80], 0xca62c1d6, |x, y, z| x ^ y ^ z);
    std::array::from_fn(|i| state[i].wrapping_add(working[i]))
}

fn message_schedule(block: &[u8; BLOCK_LENGTH]) -> [u32; 80] {
    let mut words = [0u32; 80];
    for (word, bytes) in words.iter_mut().zip(block.chunks_exact(4)) {
        *word = bytes.iter().fold(0, |w, byte| w << 8 | u32::from(*byte));
    }
    for t in 16..80 {
        words[t] = (words[t - 3] ^ words[t - 8] ^ words[t - 14] ^ words[t - 16]).rotate_left(1);
    }
    words
}

/// Twenty rounds share a constant and a function (FIPS 180-4, 4.1.1 and 4.2.1).
fn rounds(
    working: [u32; 5],
    words: &[u32],
    constant: u32,
    function: impl Fn(u32, u32, u32) -> u32,
) -> [u32; 5] {
    let [mut a, mut b, mut c, mut d, mut e] = working;
    for word in words {
        let next = a
            .rotate_left(5)
            .wrapping_add(function(b, c, d))
            .wrapping_add(e)
            .wrapping_add(constant)
            .wrapping_add(*word);
        (a, b, c, d, e) = (next, a, b.rotate_left(30), c, d);
    }
    [a, b, c, d, e]
}
