//! The list card: a table searched from its first entry on.

use super::words::{Entry, Refusal, first_match};

/// A lookup card, of any make.
pub trait Card {
    fn capacity(&self) -> usize;
    fn clear(&mut self);
    fn append(&mut self, entry: Entry) -> Result<(), Refusal>;
    fn search(&self, code: u16, byte: u8) -> Option<(u16, u8)>;
}

/// A card that keeps its entries as a list.
pub struct ListCard {
    entries: Vec<Entry>,
    capacity: usize,
}

impl ListCard {
    pub fn new(capacity: usize) -> ListCard {
        ListCard {
            entries: Vec::with_capacity(capacity),
            capacity,
        }
    }
}

impl Card for ListCard {
    fn capacity(&self) -> usize {
        self.capacity
    }

    fn clear(&mut self) {
        self.entries.clear();
    }

    fn append(&mut self, entry: Entry) -> Result<(), Refusal> {
        if self.entries.len() == self.capacity {
            return Err(Refusal::CardFull);
        }
        self.entries.push(entry);
        Ok(())
    }

    fn search(&self, code: u16, byte: u8) -> Option<(u16, u8)> {
        first_match(&self.entries, code, byte)
    }
}
