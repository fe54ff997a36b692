//! Building the two-byte table image of an automaton.

use super::image::pack;
use super::words::PairEntry;
use crate::plain::build::deferrable;
use crate::plain::forest::{Placement, Plan, plan};
use crate::plain::prefix::{PrefixWord, Subtrees};
use crate::plain::words::{Automaton, Entry, MOST_ENTRIES, Refusal};

/// Writes the two-byte table image of an automaton over the first bytes of the output, and answers its size.
pub fn build(
    automaton: &Automaton<'_>,
    work: &mut [u32],
    out: &mut [u8],
) -> Result<usize, Refusal> {
    let plan = plan(automaton, work)?;
    let entries = entries(automaton, &plan)?;
    let codes: Vec<u16> = plan.places.iter().map(|place| place.code).collect();
    pack(plan.width, automaton.start, &codes, &entries, out)
}

/// The entry of a state for a word.
fn entry_of(automaton: &Automaton<'_>, plan: &Plan, own: &Placement, word: &PrefixWord) -> Entry {
    let next = usize::from(word.next);
    Entry::new(
        own.code,
        own.mask,
        word.byte_value(),
        word.byte_mask(),
        plan.places[next].code,
        automaton.classes[next],
    )
}

/// The words before a closing default word of a state that leads to itself, where a shortest list has one and the state is a
/// root of class 0.
fn front(
    subtrees: &mut Subtrees,
    automaton: &Automaton<'_>,
    plan: &Plan,
    state: usize,
    list: &[PrefixWord],
) -> Option<Vec<PrefixWord>> {
    if plan.places[state].parent.is_some() || automaton.classes[state] != 0 {
        return None;
    }
    let row = automaton.row(state);
    let own: [bool; 256] = std::array::from_fn(|byte| usize::from(row[byte]) == state);
    let front = subtrees.shortest_list(row, &own);
    (front.len() + 1 == list.len()).then_some(front)
}

/// The entries of all states, deeper ones first, with the closing entry of a root unrolled.
fn entries(automaton: &Automaton<'_>, plan: &Plan) -> Result<Vec<PairEntry>, Refusal> {
    let mut subtrees = Subtrees::default();
    let mut entries = Vec::with_capacity(MOST_ENTRIES);
    let deepest = plan.places.iter().map(|place| place.depth).max().unwrap_or(0);
    for depth in (0..=deepest).rev() {
        for (state, own) in plan.places.iter().enumerate() {
            if own.depth != depth {
                continue;
            }
            let deferrable = deferrable(automaton, plan, state);
            let list = subtrees.shortest_list(automaton.row(state), &deferrable);
            let made = |word: &PrefixWord| entry_of(automaton, plan, own, word);
            match front(&mut subtrees, automaton, plan, state, &list) {
                Some(front) => {
                    let last = made(&PrefixWord {
                        bits: 0,
                        value: 0,
                        next: state as u16,
                    });
                    let singles = front.iter().map(|word| PairEntry::single(made(word)));
                    let doubles = front.iter().map(|word| PairEntry::double(last, made(word)));
                    let closing = PairEntry::double(last, last);
                    entries.extend(singles.chain(doubles).chain([closing]));
                }
                None => entries.extend(list.iter().map(|word| PairEntry::single(made(word)))),
            }
            if entries.len() > MOST_ENTRIES {
                return Err(Refusal::TooManyEntries);
            }
        }
    }
    Ok(entries)
}
