//! Entries over a code and two bytes.

use crate::plain::words::{Entry, Refusal};

/// How many bytes an entry takes.
#[derive(Clone, Copy, PartialEq, Eq, Default, Debug)]
pub enum Stride {
    #[default]
    One,
    Two,
}

impl Stride {
    pub fn bytes(self) -> usize {
        match self {
            Stride::One => 1,
            Stride::Two => 2,
        }
    }
}

/// One row of a two-byte table.
#[derive(Clone, Copy, PartialEq, Eq, Default, Debug)]
pub struct PairEntry {
    pub entry: Entry,
    pub second_value: u8,
    pub second_mask: u8,
    pub stride: Stride,
}

impl PairEntry {
    /// The entry that takes one byte, whatever the second.
    pub fn single(entry: Entry) -> PairEntry {
        PairEntry {
            entry,
            ..PairEntry::default()
        }
    }

    /// The entry that takes two bytes: the byte of the first, and then that of the second, which decides.
    pub fn double(first: Entry, second: Entry) -> PairEntry {
        PairEntry {
            entry: Entry {
                next: second.next,
                class: second.class,
                ..first
            },
            second_value: second.byte_value,
            second_mask: second.byte_mask,
            stride: Stride::Two,
        }
    }

    /// Whether all compared bits of the code and of both bytes agree.
    pub fn matches(&self, code: u16, byte: u8, second: u8) -> bool {
        self.entry.matches(code, byte) && second & self.second_mask == self.second_value
    }
}

/// What a search finds: the successor code, the class and the stride.
pub type Decision = (u16, u8, Stride);

/// The decision of the first entry that matches.
pub fn first_pair(entries: &[PairEntry], code: u16, byte: u8, second: u8) -> Option<Decision> {
    entries
        .iter()
        .find(|e| e.matches(code, byte, second))
        .map(|e| (e.entry.next, e.entry.class, e.stride))
}

/// A card that keeps two-byte entries as a list.
pub struct PairCard {
    entries: Vec<PairEntry>,
    capacity: usize,
}

impl PairCard {
    pub fn new(capacity: usize) -> PairCard {
        PairCard {
            entries: Vec::with_capacity(capacity),
            capacity,
        }
    }

    pub fn capacity(&self) -> usize {
        self.capacity
    }

    pub fn clear(&mut self) {
        self.entries.clear();
    }

    pub fn append(&mut self, entry: PairEntry) -> Result<(), Refusal> {
        if self.entries.len() == self.capacity {
            return Err(Refusal::CardFull);
        }
        self.entries.push(entry);
        Ok(())
    }

    pub fn search(&self, code: u16, byte: u8, second: u8) -> Option<Decision> {
        first_pair(&self.entries, code, byte, second)
    }
}
