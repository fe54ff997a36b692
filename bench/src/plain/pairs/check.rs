//! Whether a two-byte image carries its automaton.

use super::image::unpack;
use super::words::{PairEntry, Stride, first_pair};
use crate::plain::words::{Automaton, Refusal};

/// An automaton and the codes of its states.
struct Codes<'a> {
    automaton: Automaton<'a>,
    codes: Vec<u16>,
}

impl Codes<'_> {
    fn next(&self, state: u16, byte: u8) -> u16 {
        self.automaton.row(usize::from(state))[usize::from(byte)]
    }

    fn class(&self, state: u16) -> u8 {
        self.automaton.classes[usize::from(state)]
    }

    fn code(&self, state: u16) -> u16 {
        self.codes[usize::from(state)]
    }

    /// Whether a code and a class are those of a state.
    fn are_of(&self, code: u16, class: u8, state: u16) -> bool {
        code == self.code(state) && class == self.class(state)
    }

    /// Whether the first of some entries that matches decides rightly.
    fn decide(&self, entries: &[PairEntry], state: u16, byte: u8, second: u8) -> bool {
        let between = self.next(state, byte);
        match first_pair(entries, self.code(state), byte, second) {
            Some((code, class, Stride::One)) => self.are_of(code, class, between),
            Some((code, class, Stride::Two)) => {
                self.class(between) == 0 && self.are_of(code, class, self.next(between, second))
            }
            None => false,
        }
    }

    /// The lowest second byte at which entries do not decide rightly, by a search among those that match the first byte.
    fn wrong_second(&self, entries: &[PairEntry], state: u16, byte: u8) -> Option<u8> {
        let meets = |e: &&PairEntry| byte & e.entry.byte_mask == e.entry.byte_value;
        let row: Vec<PairEntry> = entries.iter().filter(meets).copied().collect();
        (0..=255).find(|&second| !self.decide(&row, state, byte, second))
    }

    /// Whether the first entry that matches the first byte takes it alone, compares nothing of the second, and decides
    /// rightly.
    fn settled(&self, entries: &[PairEntry], state: u16, byte: u8) -> bool {
        let code = self.code(state);
        entries
            .iter()
            .find(|e| e.entry.matches(code, byte))
            .is_some_and(|e| {
                e.second_mask == 0
                    && e.stride == Stride::One
                    && self.are_of(e.entry.next, e.entry.class, self.next(state, byte))
            })
    }

    /// Whether a state goes on alike from two first bytes, and the same entries match both.
    fn alike(&self, entries: &[PairEntry], state: u16, byte: u8, other: u8) -> bool {
        let meets = |e: &PairEntry, byte: u8| byte & e.entry.byte_mask == e.entry.byte_value;
        self.next(state, byte) == self.next(state, other)
            && entries.iter().all(|e| meets(e, byte) == meets(e, other))
    }

    /// The lowest bytes at which the entries of a state do not decide rightly. The second bytes are looked through for a
    /// first byte that one entry does not settle and that is not like the latest for which they were.
    fn wrong_bytes(&self, entries: &[PairEntry], state: u16) -> Option<(u8, u8)> {
        let mut latest = None;
        for byte in 0..=255 {
            let settled = self.settled(entries, state, byte);
            if settled || latest.is_some_and(|other| self.alike(entries, state, byte, other)) {
                continue;
            }
            if let Some(second) = self.wrong_second(entries, state, byte) {
                return Some((byte, second));
            }
            latest = Some(byte);
        }
        None
    }

    /// The same, with a look at each second byte of each first byte.
    fn wrong_bytes_straight(&self, entries: &[PairEntry], state: u16) -> Option<(u8, u8)> {
        (0..=255).find_map(|byte| {
            let second = self.wrong_second(entries, state, byte)?;
            Some((byte, second))
        })
    }
}

/// Accepts an automaton and the bytes of a two-byte image that keep the acceptance rule.
pub fn check(automaton: &Automaton<'_>, image: &[u8]) -> Result<(), Refusal> {
    check_by(automaton, image, |codes, own, state| codes.wrong_bytes(own, state))
}

/// The same, by a search for each state and two bytes.
pub fn check_straight(automaton: &Automaton<'_>, image: &[u8]) -> Result<(), Refusal> {
    check_by(automaton, image, |codes, own, state| codes.wrong_bytes_straight(own, state))
}

/// A check in which `wrong` looks through the bytes of a state.
fn check_by(
    automaton: &Automaton<'_>,
    image: &[u8],
    wrong: impl Fn(&Codes<'_>, &[PairEntry], u16) -> Option<(u8, u8)>,
) -> Result<(), Refusal> {
    automaton.check_limits()?;
    let image = unpack(image)?;
    if image.states != automaton.states || image.start != automaton.start {
        return Err(Refusal::Mismatch);
    }
    let codes = Codes {
        automaton: *automaton,
        codes: image.codes().collect(),
    };
    let entries: Vec<PairEntry> = image.entries().collect();
    for state in 0..automaton.states {
        let code = codes.code(state);
        let accepts = |e: &&PairEntry| e.entry.accepts(code);
        let own: Vec<PairEntry> = entries.iter().filter(accepts).copied().collect();
        if let Some((byte, second)) = wrong(&codes, &own, state) {
            return Err(Refusal::WrongPair(state, byte, second));
        }
    }
    Ok(())
}
