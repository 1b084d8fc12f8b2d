//! AES in the encrypt direction (FIPS 197), by tables of words.
//!
//! The tables are worked out from FIPS 197's own rules when the crate is compiled. Counter mode
//! needs no decryption, so there is none.

/// Bytes of a block.
pub const BLOCK_LENGTH: usize = 16;

/// Rounds for the longest key (FIPS 197, figure 4).
const MAX_ROUNDS: usize = 14;

/// The S-box (FIPS 197, 5.1.1).
pub static S_BOX: [u8; 256] = s_box();

/// `COLUMNS[r][x]`: what byte x in row r of a column adds to the column that SubBytes and
/// MixColumns give.
static COLUMNS: [[u32; 256]; 4] = [columns(0), columns(1), columns(2), columns(3)];

/// An expanded key.
#[derive(Clone, Debug, PartialEq, Eq)]
pub struct Aes {
    round_keys: [[u32; 4]; MAX_ROUNDS + 1],
    rounds: usize,
}

impl Aes {
    /// Expands a key of 16, 24 or 32 bytes; no other length is a key.
    pub fn new(key: &[u8]) -> Option<Aes> {
        if !matches!(key.len(), 16 | 24 | 32) {
            return None;
        }
        let rounds = key.len() / 4 + 6;
        let mut round_keys = [[0; 4]; MAX_ROUNDS + 1];
        for (i, word) in expand(key, 4 * (rounds + 1)).into_iter().enumerate() {
            round_keys[i / 4][i % 4] = word;
        }
        Some(Aes { round_keys, rounds })
    }

    /// The round key words in use, in order (FIPS 197's w).
    pub fn round_key_words(&self) -> Vec<u32> {
        self.round_keys[..=self.rounds].concat()
    }

    /// Enciphers one block (FIPS 197, 5.1).
    pub fn encrypt(&self, block: &[u8; BLOCK_LENGTH]) -> [u8; BLOCK_LENGTH] {
        let mut state = add_round_key(words_of(block), &self.round_keys[0]);
        for key in &self.round_keys[1..self.rounds] {
            state = add_round_key(mix_round(&state), key);
        }
        bytes_of(add_round_key(last_round(&state), &self.round_keys[self.rounds]))
    }
}

/// KeyExpansion (FIPS 197, 5.2), the first `length` words.
fn expand(key: &[u8], length: usize) -> Vec<u32> {
    let key_words = key.len() / 4;
    let mut words: Vec<u32> = key.chunks_exact(4).map(big_endian).collect();
    let mut round_constant = 1;
    for i in key_words..length {
        let mut word = words[i - 1];
        if i % key_words == 0 {
            word = sub_word(word.rotate_left(8)) ^ (u32::from(round_constant) << 24);
            round_constant = times_x(round_constant);
        } else if key_words > 6 && i % key_words == 4 {
            word = sub_word(word);
        }
        words.push(words[i - key_words] ^ word);
    }
    words
}

fn sub_word(word: u32) -> u32 {
    u32::from_be_bytes(word.to_be_bytes().map(|byte| S_BOX[usize::from(byte)]))
}

fn add_round_key(mut state: [u32; 4], key: &[u32; 4]) -> [u32; 4] {
    for (word, key_word) in state.iter_mut().zip(key) {
        *word ^= key_word;
    }
    state
}

/// The byte that ShiftRows brings into row `row` of column `column`.
fn shifted(state: &[u32; 4], column: usize, row: usize) -> usize {
    ((state[(column + row) % 4] >> (24 - 8 * row)) & 0xff) as usize
}

/// SubBytes, ShiftRows and MixColumns, a column at a time.
fn mix_round(state: &[u32; 4]) -> [u32; 4] {
    std::array::from_fn(|column| {
        COLUMNS[0][shifted(state, column, 0)]
            ^ COLUMNS[1][shifted(state, column, 1)]
            ^ COLUMNS[2][shifted(state, column, 2)]
            ^ COLUMNS[3][shifted(state, column, 3)]
    })
}

/// The last round has no MixColumns.
fn last_round(state: &[u32; 4]) -> [u32; 4] {
    std::array::from_fn(|column| {
        u32::from_be_bytes(std::array::from_fn(|row| S_BOX[shifted(state, column, row)]))
    })
}

fn words_of(block: &[u8; BLOCK_LENGTH]) -> [u32; 4] {
    std::array::from_fn(|i| big_endian(&block[4 * i..4 * i + 4]))
}

fn bytes_of(words: [u32; 4]) -> [u8; BLOCK_LENGTH] {
    let mut block = [0; BLOCK_LENGTH];
    for (bytes, word) in block.chunks_exact_mut(4).zip(words) {
        bytes.copy_from_slice(&word.to_be_bytes());
    }
    block
}

fn big_endian(bytes: &[u8]) -> u32 {
    bytes.iter().fold(0, |word, byte| word << 8 | u32::from(*byte))
}

/// xtime (FIPS 197, 4.2.1).
const fn times_x(a: u8) -> u8 {
    let reduction = if a & 0x80 == 0 { 0 } else { 0x1b };
    (a << 1) ^ reduction
}

/// Multiplication in GF(2^8) (FIPS 197, 4.2).
const fn multiply(a: u8, b: u8) -> u8 {
    let (mut power, mut rest, mut sum) = (a, b, 0);
    while rest != 0 {
        if rest & 1 == 1 {
            sum ^= power;
        }
        power = times_x(power);
        rest >>= 1;
    }
    sum
}

/// The multiplicative inverse, 0 for 0: a to the power 254.
const fn inverse(a: u8) -> u8 {
    let (mut square, mut product, mut i) = (a, 1, 1);
    while i < 8 {
        square = multiply(square, square);
        product = multiply(product, square);
        i += 1;
    }
    product
}

const fn s_box() -> [u8; 256] {
    let mut table = [0; 256];
    let mut x = 0;
    while x < 256 {
        let b = inverse(x as u8);
        table[x] =
            b ^ b.rotate_left(1) ^ b.rotate_left(2) ^ b.rotate_left(3) ^ b.rotate_left(4) ^ 0x63;
        x += 1;
    }
    table
}

/// A column's matrix (FIPS 197, 5.1.3) repeats its first column, one row further down each time.
const fn columns(row: u32) -> [u32; 256] {
    let substitutes = s_box();
    let mut table = [0; 256];
    let mut x = 0;
    while x < 256 {
        let s = substitutes[x];
        let column = u32::from_be_bytes([multiply(s, 2), s, s, multiply(s, 3)]);
        table[x] = column.rotate_right(8 * row);
        x += 1;
    }
    table
}
