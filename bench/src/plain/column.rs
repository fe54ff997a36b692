//! The column card: one bitmap for each key bit and each value of it.

use super::list::Card;
use super::words::{Entry, Refusal};

/// The words of a block of 64 entries: two for each of the 16 bits of a code and the 8 of a byte.
const BLOCK: usize = 48;

/// Where the words of the byte begin in a block.
const BYTE: usize = 32;

/// A card that keeps its entries as bitmaps.
pub struct ColumnCard {
    words: Vec<u64>,
    decisions: Vec<(u16, u8)>,
    capacity: usize,
}

impl ColumnCard {
    pub fn new(capacity: usize) -> ColumnCard {
        ColumnCard {
            words: vec![0; BLOCK * capacity.div_ceil(64)],
            decisions: Vec::with_capacity(capacity),
            capacity,
        }
    }
}

/// Which of the 64 entries of a block accept the code and the byte.
fn join(block: &[u64], code: u16, byte: u8) -> u64 {
    let (code_words, byte_words) = block.split_at(BYTE);
    let code_bits = code_words.chunks_exact(2).enumerate();
    let byte_bits = byte_words.chunks_exact(2).enumerate();
    let joined = code_bits.fold(u64::MAX, |joined, (k, pair)| {
        joined & pair[usize::from(code >> k & 1)]
    });
    byte_bits.fold(joined, |joined, (k, pair)| {
        joined & pair[usize::from(byte >> k & 1)]
    })
}

/// Writes at one place of a block which values of each bit of a field are accepted.
fn write_field(words: &mut [u64], place: usize, value: u16, mask: u16) {
    for (k, pair) in words.chunks_exact_mut(2).enumerate() {
        let (value, mask) = (value >> k & 1, mask >> k & 1);
        for (wanted, word) in pair.iter_mut().enumerate() {
            let accepted = mask == 0 || usize::from(value) == wanted;
            *word = *word & !(1 << place) | u64::from(accepted) << place;
        }
    }
}

impl Card for ColumnCard {
    fn capacity(&self) -> usize {
        self.capacity
    }

    fn clear(&mut self) {
        self.decisions.clear();
    }

    fn append(&mut self, entry: Entry) -> Result<(), Refusal> {
        let index = self.decisions.len();
        if index == self.capacity {
            return Err(Refusal::CardFull);
        }
        let block = &mut self.words[BLOCK * (index / 64)..][..BLOCK];
        let (code_words, byte_words) = block.split_at_mut(BYTE);
        let place = index % 64;
        write_field(code_words, place, entry.code_value, entry.code_mask);
        write_field(
            byte_words,
            place,
            entry.byte_value.into(),
            entry.byte_mask.into(),
        );
        self.decisions.push((entry.next, entry.class));
        Ok(())
    }

    fn search(&self, code: u16, byte: u8) -> Option<(u16, u8)> {
        let blocks = self.decisions.len().div_ceil(64);
        for (number, block) in self.words.chunks_exact(BLOCK).take(blocks).enumerate() {
            let joined = join(block, code, byte);
            if joined != 0 {
                let index = 64 * number + joined.trailing_zeros() as usize;
                return self.decisions.get(index).copied();
            }
        }
        None
    }
}
