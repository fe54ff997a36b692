//! Whether an image carries its automaton.

use super::image::unpack;
use super::words::{Automaton, Entry, Refusal, first_match};
use std::borrow::Cow;

/// Accepts an automaton and the bytes of an image that keep the acceptance rule. The entries are looked through once for
/// each state: those of other codes are no part of the searches for its bytes.
pub fn check(automaton: &Automaton<'_>, image: &[u8]) -> Result<(), Refusal> {
    check_among(automaton, image, |entries, code| {
        Cow::Owned(entries.iter().filter(|entry| entry.accepts(code)).copied().collect())
    })
}

/// The same, by a search through all entries for each state and byte.
pub fn check_straight(automaton: &Automaton<'_>, image: &[u8]) -> Result<(), Refusal> {
    check_among(automaton, image, |entries, _| Cow::Borrowed(entries))
}

/// A check in which `own` says which entries are searched for a state's code.
fn check_among(
    automaton: &Automaton<'_>,
    image: &[u8],
    own: impl Fn(&[Entry], u16) -> Cow<'_, [Entry]>,
) -> Result<(), Refusal> {
    automaton.check_limits()?;
    let image = unpack(image)?;
    if image.states != automaton.states || image.start != automaton.start {
        return Err(Refusal::Mismatch);
    }
    let codes: Vec<u16> = image.codes().collect();
    let entries: Vec<Entry> = image.entries().collect();
    for (state, &code) in codes.iter().enumerate() {
        let searched = own(&entries, code);
        for (byte, &next) in (0..=255u8).zip(automaton.row(state)) {
            let next = usize::from(next);
            let wanted = (codes[next], automaton.classes[next]);
            if first_match(&searched, code, byte) != Some(wanted) {
                return Err(Refusal::WrongEntry(state as u16, byte));
            }
        }
    }
    Ok(())
}
