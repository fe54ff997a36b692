//! Building the table image of an automaton.

use super::forest::{Plan, plan};
use super::image::pack;
use super::prefix::Subtrees;
use super::sorted;
use super::words::{Automaton, Entry, MOST_ENTRIES, Refusal};

/// Writes the table image of an automaton over the first bytes of the output, and answers its size.
pub fn build(
    automaton: &Automaton<'_>,
    work: &mut [u32],
    out: &mut [u8],
) -> Result<usize, Refusal> {
    build_over(automaton, &plan(automaton, work)?, out)
}

/// The same, with the pairs of states sorted.
pub fn build_sorted(
    automaton: &Automaton<'_>,
    work: &mut [u32],
    out: &mut [u8],
) -> Result<usize, Refusal> {
    build_over(automaton, &sorted::plan(automaton, work)?, out)
}

fn build_over(automaton: &Automaton<'_>, plan: &Plan, out: &mut [u8]) -> Result<usize, Refusal> {
    let entries = entries(automaton, plan)?;
    let codes: Vec<u16> = plan.places.iter().map(|place| place.code).collect();
    pack(plan.width, automaton.start, &codes, &entries, out)
}

/// The bytes that a state shares with the state that it defers to.
pub fn deferrable(automaton: &Automaton<'_>, plan: &Plan, state: usize) -> [bool; 256] {
    match plan.places[state].parent {
        None => [false; 256],
        Some(parent) => {
            let (row, other) = (automaton.row(state), automaton.row(usize::from(parent)));
            std::array::from_fn(|byte| row[byte] == other[byte])
        }
    }
}

/// The entries of all states, deeper ones first.
fn entries(automaton: &Automaton<'_>, plan: &Plan) -> Result<Vec<Entry>, Refusal> {
    let mut subtrees = Subtrees::default();
    let mut entries = Vec::with_capacity(MOST_ENTRIES);
    let deepest = plan.places.iter().map(|place| place.depth).max().unwrap_or(0);
    for depth in (0..=deepest).rev() {
        for (state, own) in plan.places.iter().enumerate() {
            if own.depth != depth {
                continue;
            }
            let deferrable = deferrable(automaton, plan, state);
            for word in subtrees.shortest_list(automaton.row(state), &deferrable) {
                if entries.len() == MOST_ENTRIES {
                    return Err(Refusal::TooManyEntries);
                }
                let next = usize::from(word.next);
                entries.push(Entry::new(
                    own.code,
                    own.mask,
                    word.byte_value(),
                    word.byte_mask(),
                    plan.places[next].code,
                    automaton.classes[next],
                ));
            }
        }
    }
    Ok(entries)
}
