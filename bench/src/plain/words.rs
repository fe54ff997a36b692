//! Entries, refusals, marks, and the automaton.

/// The most states that an automaton may have.
pub const MOST_STATES: usize = 512;

/// The most entries that a table may have.
pub const MOST_ENTRIES: usize = 4096;

/// Why a call declines.
#[derive(Clone, Copy, PartialEq, Eq, Debug)]
pub enum Refusal {
    BadAutomaton,
    WorkTooShort,
    OutputTooShort,
    TooManyEntries,
    CardFull,
    CardTooSmall,
    NoEntry(Progress),
    PieceTooLong,
    Malformed(usize),
    Mismatch,
    WrongEntry(u16, u8),
    WrongPair(u16, u8, u8),
    CodesDiffer,
}

impl Refusal {
    /// The number by which a refusal is known.
    pub fn number(self) -> u8 {
        match self {
            Refusal::BadAutomaton => 1,
            Refusal::WorkTooShort => 2,
            Refusal::OutputTooShort => 3,
            Refusal::TooManyEntries => 4,
            Refusal::CardFull => 5,
            Refusal::CardTooSmall => 6,
            Refusal::NoEntry(_) => 7,
            Refusal::PieceTooLong => 9,
            Refusal::Malformed(_) => 10,
            Refusal::Mismatch => 11,
            Refusal::WrongEntry(_, _) | Refusal::WrongPair(_, _, _) => 12,
            Refusal::CodesDiffer => 22,
        }
    }
}

/// A byte that led to a marking state: its place in its piece, and the class.
#[derive(Clone, Copy, PartialEq, Eq, Default, Debug)]
pub struct Mark {
    pub place: u16,
    pub class: u8,
}

/// What a walk over a piece answers.
#[derive(Clone, Copy, PartialEq, Eq, Debug)]
pub struct Progress {
    pub taken: usize,
    pub marks: usize,
    pub code: u16,
    pub marks_full: bool,
    pub searches: usize,
}

/// One row of a table.
#[derive(Clone, Copy, PartialEq, Eq, Default, Debug)]
pub struct Entry {
    pub code_value: u16,
    pub code_mask: u16,
    pub byte_value: u8,
    pub byte_mask: u8,
    pub next: u16,
    pub class: u8,
}

impl Entry {
    /// The entry with these masks, which clears each value bit under a star.
    pub fn new(
        code_value: u16,
        code_mask: u16,
        byte_value: u8,
        byte_mask: u8,
        next: u16,
        class: u8,
    ) -> Entry {
        Entry {
            code_value: code_value & code_mask,
            code_mask,
            byte_value: byte_value & byte_mask,
            byte_mask,
            next,
            class,
        }
    }

    /// Whether all compared bits of the code agree.
    pub fn accepts(&self, code: u16) -> bool {
        code & self.code_mask == self.code_value
    }

    /// Whether all compared bits of the code and of the byte agree.
    pub fn matches(&self, code: u16, byte: u8) -> bool {
        self.accepts(code) && byte & self.byte_mask == self.byte_value
    }
}

/// The successor code and the class of the first entry that matches.
pub fn first_match(entries: &[Entry], code: u16, byte: u8) -> Option<(u16, u8)> {
    entries
        .iter()
        .find(|e| e.matches(code, byte))
        .map(|e| (e.next, e.class))
}

/// A deterministic automaton over bytes, as it is handed to calls.
#[derive(Clone, Copy, Debug)]
pub struct Automaton<'a> {
    pub states: u16,
    pub start: u16,
    pub successors: &'a [u16],
    pub classes: &'a [u8],
}

impl<'a> Automaton<'a> {
    /// Accepts an automaton that keeps its limits and buffer lengths.
    pub fn check_limits(&self) -> Result<(), Refusal> {
        let states = self.states as usize;
        let sound = (1..=MOST_STATES).contains(&states)
            && self.start < self.states
            && self.successors.len() == 256 * states
            && self.classes.len() == states
            && self.successors.iter().all(|&next| next < self.states);
        if sound {
            Ok(())
        } else {
            Err(Refusal::BadAutomaton)
        }
    }

    /// The successors of a state, byte by byte.
    pub fn row(&self, state: usize) -> &'a [u16] {
        &self.successors[256 * state..256 * state + 256]
    }
}
