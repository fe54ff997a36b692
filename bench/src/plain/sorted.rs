//! The plan once more, in the words of the rules: the pairs are collected and sorted, and trees are sets that are united.

use super::forest::{
    Join, Place, Plan, coded, count_loops, count_shared, flat, roots, work_needed,
};
use super::words::{Automaton, Refusal};

/// The plan of an automaton; the shared counts of its states are worked out in the lent numbers. The steps stand as in
/// `forest`, and not in one function for both: with that the compiler made both slower by a sixth.
pub fn plan(automaton: &Automaton<'_>, work: &mut [u32]) -> Result<Plan, Refusal> {
    automaton.check_limits()?;
    let states = automaton.states as usize;
    if work.len() < work_needed(states) {
        return Err(Refusal::WorkTooShort);
    }
    count_shared(automaton, work);
    let (labels, joins) = join_sorted(work, states);
    let loops = count_loops(automaton);
    let places = place(states, &joins, &roots(&labels, &loops));
    Ok(coded(&places).unwrap_or_else(|| flat(states)))
}

/// The state that names the tree of a state.
fn find(parents: &mut [u16], state: u16) -> u16 {
    let mut at = state;
    while parents[usize::from(at)] != at {
        let up = parents[usize::from(at)];
        parents[usize::from(at)] = parents[usize::from(up)];
        at = up;
    }
    at
}

/// Joins the pairs that share 32 bytes or more, sorted by the rule.
fn join_sorted(shared: &[u32], states: usize) -> (Vec<u16>, Vec<Join>) {
    let mut pairs: Vec<(u32, u16, u16)> = Vec::new();
    for s in 0..states {
        for t in s + 1..states {
            let bytes = shared[s * states + t];
            if bytes >= 32 {
                pairs.push((256 - bytes, s as u16, t as u16));
            }
        }
    }
    pairs.sort_unstable();
    let mut parents: Vec<u16> = (0..states as u16).collect();
    let mut joins = Vec::new();
    for (_, s, t) in pairs {
        let (low, high) = (find(&mut parents, s), find(&mut parents, t));
        if low != high {
            parents[usize::from(high)] = low;
            joins.push((s, t));
        }
    }
    let labels = (0..states as u16).map(|s| find(&mut parents, s)).collect();
    (labels, joins)
}

/// The place of each state, by walking each tree from its root.
fn place(states: usize, joins: &[Join], roots: &[bool]) -> Vec<Place> {
    let mut neighbours = vec![Vec::new(); states];
    for &(s, t) in joins {
        neighbours[usize::from(s)].push(t);
        neighbours[usize::from(t)].push(s);
    }
    let mut places: Vec<Place> = vec![(None, 0); states];
    let mut open: Vec<u16> = (0..states as u16)
        .filter(|s| roots[usize::from(*s)])
        .collect();
    while let Some(s) = open.pop() {
        let (parent, depth) = places[usize::from(s)];
        for &t in &neighbours[usize::from(s)] {
            if Some(t) != parent {
                places[usize::from(t)] = (Some(s), depth + 1);
                open.push(t);
            }
        }
    }
    places
}
