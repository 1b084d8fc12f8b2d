//! AES in the encrypt direction (FIPS 197), by four tables of words.
//!
//! A word is a column with its first byte at the little end, as most processors load it.

use reference::aes::{Aes, S_BOX};

/// Rounds for a key of 16 bytes (FIPS 197, figure 4).
const ROUNDS: usize = 10;

/// The four columns of a state, or of a round key.
pub type Block = [u32; 4];

/// `[r][x]`: what byte x in row r of a column adds to the column that a round gives.
type Tables = [[u32; 256]; 4];

/// SubBytes and MixColumns.
pub static COLUMNS: Tables = tables(&S_BOX, true);
/// SubBytes alone: the last round has no MixColumns. A table of words spares it the shifts that
/// the S-box's bytes would need.
static LAST_COLUMNS: Tables = tables(&S_BOX, false);

/// An expanded key.
pub struct RoundKeys([Block; ROUNDS + 1]);

impl RoundKeys {
    /// Expands a key of 16 bytes.
    pub fn new(key: &[u8]) -> RoundKeys {
        let words = Aes::new(key).expect("a key of AES").round_key_words();
        RoundKeys(std::array::from_fn(|round| {
            std::array::from_fn(|column| words[4 * round + column].swap_bytes())
        }))
    }

    /// The key of a round; 0 is the one that is added before the first.
    pub fn of(&self, round: usize) -> &Block {
        &self.0[round]
    }

    /// Takes states that have `done` rounds behind them through the others. Several at once, for
    /// states that don't depend on each other wait less for their tables. By loops, for of `map`
    /// the compiler leaves calls.
    #[inline(always)]
    pub fn finish<const N: usize>(&self, done: usize, mut states: [Block; N]) -> [Block; N] {
        for key in &self.0[done + 1..ROUNDS] {
            for state in &mut states {
                *state = mix_round(*state, key);
            }
        }
        for state in &mut states {
            *state = round(&LAST_COLUMNS, *state, &self.0[ROUNDS]);
        }
        states
    }
}

/// A round before the last.
#[inline(always)]
pub fn mix_round(state: Block, key: &Block) -> Block {
    round(&COLUMNS, state, key)
}

#[inline(always)]
fn round(tables: &Tables, [a, b, c, d]: Block, key: &Block) -> Block {
    let column = |a, b, c, d| {
        tables[0][byte(a, 0)]
            ^ tables[1][byte(b, 1)]
            ^ tables[2][byte(c, 2)]
            ^ tables[3][byte(d, 3)]
    };
    added([column(a, b, c, d), column(b, c, d, a), column(c, d, a, b), column(d, a, b, c)], key)
}

/// The XOR of two blocks: AddRoundKey.
#[inline(always)]
pub fn added(block: Block, other: &Block) -> Block {
    std::array::from_fn(|column| block[column] ^ other[column])
}

/// The byte of a column in this row. Being a byte, it needs no check of a table's bounds.
#[inline(always)]
pub fn byte(column: u32, row: u32) -> usize {
    usize::from((column >> (8 * row)) as u8)
}

/// A column's matrix (FIPS 197, 5.1.3) repeats its first column, one row further down each time.
const fn tables(s_box: &[u8; 256], with_mix_columns: bool) -> Tables {
    let mut tables = [[0; 256]; 4];
    let mut i = 0;
    while i < 4 * 256 {
        let (row, x) = (i / 256, i % 256);
        let s = s_box[x];
        let doubled = (s << 1) ^ (0x1b * (s >> 7));
        let column = if with_mix_columns { [doubled, s, s, doubled ^ s] } else { [s, 0, 0, 0] };
        tables[row][x] = u32::from_le_bytes(column).rotate_left(8 * row as u32);
        i += 1;
    }
    tables
}
