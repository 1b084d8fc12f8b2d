//! AES in counter mode (RFC 3711, 4.1.1), in three forms.

use super::aes::{added, byte, mix_round, Block, RoundKeys, COLUMNS};
use reference::aes::BLOCK_LENGTH;

/// A form of counter mode.
pub trait CounterMode {
    /// Writes the text, XORed with the keystream from the counter `initial` on, to `out`, which is
    /// as long. Of the counter only the last byte changes: it starts with 0, and the longest packet
    /// has no more than 128 blocks.
    fn xor_keystream(keys: &RoundKeys, initial: u128, text: &[u8], out: &mut [u8]);
}

/// Every block goes through all rounds, one block after the other.
pub struct OneBlock;
/// Every block goes through all rounds, two blocks at once.
pub struct TwoBlocks;
/// Two blocks at once, from the third round on: what the blocks of a packet have in common of the
/// first two rounds is worked out once.
pub struct SharedRounds;

impl CounterMode for OneBlock {
    fn xor_keystream(keys: &RoundKeys, initial: u128, text: &[u8], out: &mut [u8]) {
        xor::<1>(&AllRounds::new(keys, initial), text, out);
    }
}

impl CounterMode for TwoBlocks {
    fn xor_keystream(keys: &RoundKeys, initial: u128, text: &[u8], out: &mut [u8]) {
        xor::<2>(&AllRounds::new(keys, initial), text, out);
    }
}

impl CounterMode for SharedRounds {
    fn xor_keystream(keys: &RoundKeys, initial: u128, text: &[u8], out: &mut [u8]) {
        xor::<2>(&AfterTwoRounds::new(keys, initial), text, out);
    }
}

/// The keystream of a packet.
trait Keystream {
    /// Some blocks of it, from the one with the given number on.
    fn blocks<const N: usize>(&self, number: u8) -> [Block; N];
}

/// N blocks a turn, and those that are left one by one.
#[inline(always)]
fn xor<const N: usize>(keystream: &impl Keystream, text: &[u8], out: &mut [u8]) {
    let mut number = 0;
    let mut texts = text.chunks_exact(N * BLOCK_LENGTH);
    let mut outs = out.chunks_exact_mut(N * BLOCK_LENGTH);
    for (text, out) in texts.by_ref().zip(outs.by_ref()) {
        let blocks = keystream.blocks::<N>(number);
        let places = text.chunks_exact(BLOCK_LENGTH).zip(out.chunks_exact_mut(BLOCK_LENGTH));
        for (block, (text, out)) in blocks.into_iter().zip(places) {
            xor_block(block, text, out);
        }
        number += N as u8;
    }
    let (text, out) = (texts.remainder(), outs.into_remainder());
    for (text, out) in text.chunks(BLOCK_LENGTH).zip(out.chunks_mut(BLOCK_LENGTH)) {
        let [block] = keystream.blocks(number);
        xor_block(block, text, out);
        number += 1;
    }
}

/// Whole words of the text at once; the last block of a packet may end with less.
#[inline(always)]
fn xor_block(block: Block, text: &[u8], out: &mut [u8]) {
    for (word, (text, out)) in block.into_iter().zip(text.chunks(4).zip(out.chunks_mut(4))) {
        if let Ok(bytes) = text.try_into() {
            out.copy_from_slice(&(word ^ u32::from_le_bytes(bytes)).to_le_bytes());
        } else {
            let bytes = text.iter().zip(word.to_le_bytes());
            out.iter_mut().zip(bytes).for_each(|(out, (byte, key_byte))| *out = byte ^ key_byte);
        }
    }
}

/// The columns of a counter.
fn block_of(counter: u128) -> Block {
    std::array::from_fn(|column| ((counter >> (96 - 32 * column)) as u32).swap_bytes())
}

/// Every block on its own.
struct AllRounds<'a> {
    keys: &'a RoundKeys,
    /// The state before the first round, without the number of the block.
    start: Block,
}

impl<'a> AllRounds<'a> {
    fn new(keys: &'a RoundKeys, initial: u128) -> Self {
        AllRounds { keys, start: added(block_of(initial), keys.of(0)) }
    }

    #[inline(always)]
    fn state(&self, number: u8) -> Block {
        let [a, b, c, d] = self.start;
        [a, b, c, d ^ (u32::from(number) << 24)]
    }
}

impl Keystream for AllRounds<'_> {
    #[inline(always)]
    fn blocks<const N: usize>(&self, number: u8) -> [Block; N] {
        self.keys.finish(0, std::array::from_fn(|i| self.state(number + i as u8)))
    }
}

/// The number of a block is in the last byte. After the first round only the first column depends on
/// it, and after the second all do.
struct AfterTwoRounds<'a> {
    keys: &'a RoundKeys,
    /// The last byte before the first round, without the number.
    last_byte: u8,
    /// The first column after the first round, without what the last byte adds.
    column: u32,
    /// The state after the second round, without what that column adds.
    state: Block,
}

impl<'a> AfterTwoRounds<'a> {
    fn new(keys: &'a RoundKeys, initial: u128) -> Self {
        let start = added(block_of(initial), keys.of(0));
        let first = mix_round(start, keys.of(1));
        let second = mix_round(first, keys.of(2));
        AfterTwoRounds {
            keys,
            last_byte: byte(start[3], 3) as u8,
            column: first[0] ^ COLUMNS[3][byte(start[3], 3)],
            state: added(second, &spread(first[0])),
        }
    }

    #[inline(always)]
    fn state(&self, number: u8) -> Block {
        let column = self.column ^ COLUMNS[3][usize::from(self.last_byte ^ number)];
        added(self.state, &spread(column))
    }
}

impl Keystream for AfterTwoRounds<'_> {
    #[inline(always)]
    fn blocks<const N: usize>(&self, number: u8) -> [Block; N] {
        self.keys.finish(2, std::array::from_fn(|i| self.state(number + i as u8)))
    }
}

/// What the first column of a state adds to the columns that a round gives. Written out, for of
/// `map` the compiler leaves a call.
#[inline(always)]
fn spread(column: u32) -> Block {
    [
        COLUMNS[0][byte(column, 0)],
        COLUMNS[3][byte(column, 3)],
        COLUMNS[2][byte(column, 2)],
        COLUMNS[1][byte(column, 1)],
    ]
}
