//! Who defers to whom, and the codes and shadows of the states, in the steps that the proved library takes: the counts
//! from 256 down to 32 that are met, and for each the pairs in order.

use super::words::{Automaton, Refusal};

/// Where a state stands in a plan.
#[derive(Clone, Copy, PartialEq, Eq, Default, Debug)]
pub struct Placement {
    pub parent: Option<u16>,
    pub depth: u16,
    pub code: u16,
    pub mask: u16,
}

/// The bits of a code, and the place of each state.
#[derive(Clone, PartialEq, Eq, Debug)]
pub struct Plan {
    pub width: u8,
    pub places: Vec<Placement>,
}

/// Two states that are joined.
pub type Join = (u16, u16);

/// A state's parent, unless it is a root, and its depth.
pub type Place = (Option<u16>, u16);

/// The numbers of working memory that a build asks for.
pub fn work_needed(states: usize) -> usize {
    states * states + 8192
}

/// The plan of an automaton; the shared counts of its states are worked out in the lent numbers.
pub fn plan(automaton: &Automaton<'_>, work: &mut [u32]) -> Result<Plan, Refusal> {
    automaton.check_limits()?;
    let states = automaton.states as usize;
    if work.len() < work_needed(states) {
        return Err(Refusal::WorkTooShort);
    }
    let met = count_shared(automaton, work);
    let (labels, joins) = join_all(work, &met, states);
    let loops = count_loops(automaton);
    let places = place(&joins, &roots(&labels, &loops));
    Ok(coded(&places).unwrap_or_else(|| flat(states)))
}

/// Counts for each two states the bytes for which both have the same successor, and answers which counts are met.
pub fn count_shared(automaton: &Automaton<'_>, shared: &mut [u32]) -> [bool; 257] {
    let states = automaton.states as usize;
    let mut met = [false; 257];
    for s in 0..states {
        let row = automaton.row(s);
        for t in s + 1..states {
            let alike = row.iter().zip(automaton.row(t)).filter(|(x, y)| x == y);
            let count = alike.count();
            shared[s * states + t] = count as u32;
            met[count] = true;
        }
    }
    met
}

/// Counts for each state the bytes that lead to itself.
pub fn count_loops(automaton: &Automaton<'_>) -> Vec<usize> {
    (0..automaton.states)
        .map(|s| {
            let row = automaton.row(usize::from(s)).iter();
            row.filter(|&&next| next == s).count()
        })
        .collect()
}

/// Joins the pairs that share 32 bytes or more, those that share more first, for the counts that are met and until all
/// states stand in one tree. Answers the tree of each state and the joins.
fn join_all(shared: &[u32], met: &[bool; 257], states: usize) -> (Vec<u16>, Vec<Join>) {
    let mut labels: Vec<u16> = (0..states as u16).collect();
    let mut joins = Vec::new();
    for bytes in (32..=256).rev().filter(|&bytes| met[bytes as usize]) {
        if labels.iter().all(|&label| label == labels[0]) {
            break;
        }
        for s in 0..states {
            let row = &shared[s * states..(s + 1) * states];
            for t in s + 1..states {
                if row[t] == bytes && labels[s] != labels[t] {
                    let (to, ended) = (labels[s], labels[t]);
                    for label in labels.iter_mut().filter(|label| **label == ended) {
                        *label = to;
                    }
                    joins.push((s as u16, t as u16));
                }
            }
        }
    }
    (labels, joins)
}

/// Which states are roots: those of their tree with the most bytes that lead to themselves, on equal counts the lowest.
pub fn roots(labels: &[u16], loops: &[usize]) -> Vec<bool> {
    let better = |t: usize, s: usize| {
        labels[t] == labels[s] && (loops[s], t) < (loops[t], s)
    };
    let states = labels.len();
    (0..states)
        .map(|s| !(0..states).any(|t| better(t, s)))
        .collect()
}

/// The place of each state: in rounds from the roots, one join further each time.
fn place(joins: &[Join], roots: &[bool]) -> Vec<Place> {
    let mut places: Vec<Option<Place>> = roots
        .iter()
        .map(|root| root.then_some((None, 0)))
        .collect();
    for depth in 0..roots.len() as u16 {
        for &(low, high) in joins {
            for (s, t) in [(low, high), (high, low)] {
                let stands = places[usize::from(s)].is_some_and(|place| place.1 == depth);
                if stands && places[usize::from(t)].is_none() {
                    places[usize::from(t)] = Some((Some(s), depth + 1));
                }
            }
        }
    }
    places.into_iter().map(Option::unwrap_or_default).collect()
}

/// The fewest bits that number `count` things.
fn bits_for(count: u32) -> u32 {
    u32::BITS - count.saturating_sub(1).leading_zeros()
}

/// An amount of a state's own, and the amounts of the states that it defers to.
fn sum_above(places: &[Place], state: usize, own: u32, amounts: &[u32]) -> u32 {
    let mut sum = own;
    let mut at = state;
    while let (Some(parent), _) = places[at] {
        at = usize::from(parent);
        sum += amounts[at];
    }
    sum
}

/// The mask of a shadow with a prefix of `len` bits.
fn shadow_mask(width: u32, len: u32) -> u16 {
    ((1u32 << width) - (1u32 << (width - len))) as u16
}

/// The plan of states that stand in these places. None if codes need more than 16 bits.
pub fn coded(places: &[Place]) -> Option<Plan> {
    let states = places.len();
    let mut children = vec![0u32; states];
    let mut roots = 0u32;
    let numbers: Vec<u32> = places
        .iter()
        .map(|(parent, _)| match parent {
            None => {
                roots += 1;
                roots - 1
            }
            Some(p) => {
                children[usize::from(*p)] += 1;
                children[usize::from(*p)]
            }
        })
        .collect();
    let bits: Vec<u32> = children.iter().map(|c| bits_for(c + 1)).collect();
    let lens: Vec<u32> = (0..states)
        .map(|s| sum_above(places, s, bits_for(roots), &bits))
        .collect();
    let width = lens.iter().copied().max().unwrap_or(0);
    if width > 16 {
        return None;
    }
    let parts: Vec<u32> = (0..states).map(|s| numbers[s] << (width - lens[s])).collect();
    let places = (0..states)
        .map(|s| Placement {
            parent: places[s].0,
            depth: places[s].1,
            code: sum_above(places, s, parts[s], &parts) as u16,
            mask: shadow_mask(width, lens[s]),
        })
        .collect();
    Some(Plan {
        width: width as u8,
        places,
    })
}

/// The plan of so many states that are all roots.
pub fn flat(states: usize) -> Plan {
    let width = bits_for(states as u32);
    let places = (0..states as u16)
        .map(|code| Placement {
            parent: None,
            depth: 0,
            code,
            mask: shadow_mask(width, width),
        })
        .collect();
    Plan {
        width: width as u8,
        places,
    }
}
