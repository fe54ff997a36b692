//! Shortest prefix lists, by the tree over the bits of a byte.

use std::ops::Range;

/// A word that compares the first `bits` bits of a byte with `value`, and decides `next`.
#[derive(Clone, Copy, PartialEq, Eq, Debug)]
pub struct PrefixWord {
    pub bits: u8,
    pub value: u8,
    pub next: u16,
}

impl PrefixWord {
    /// The bits of a byte that the word compares.
    pub fn byte_mask(&self) -> u8 {
        (256 - (1u16 << (8 - self.bits))) as u8
    }

    /// What the compared bits have to be.
    pub fn byte_value(&self) -> u8 {
        (u16::from(self.value) << (8 - self.bits)) as u8
    }
}

/// The bytes whose first `bits` bits are `value`.
#[derive(Clone, Copy)]
struct Prefix {
    bits: u8,
    value: u8,
}

impl Prefix {
    const ALL: Prefix = Prefix { bits: 0, value: 0 };

    fn halves(self) -> (Prefix, Prefix) {
        let half = |last| Prefix {
            bits: self.bits + 1,
            value: 2 * self.value + last,
        };
        (half(0), half(1))
    }
}

/// What a subtree of a row costs in words, and the successors that are best for a word over it.
struct Node {
    base: u32,
    least: u32,
    bare: bool,
    candidates: Range<usize>,
    halves: Option<(usize, usize)>,
}

/// The subtrees of one row after another; the memory is used again.
#[derive(Default)]
pub struct Subtrees {
    nodes: Vec<Node>,
    candidates: Vec<u16>,
}

impl Subtrees {
    /// A shortest list for a row. A byte that is marked in `deferrable` may stay without a match.
    pub fn shortest_list(&mut self, row: &[u16], deferrable: &[bool; 256]) -> Vec<PrefixWord> {
        self.nodes.clear();
        self.candidates.clear();
        let root = self.add(row, deferrable, Prefix::ALL);
        let mut words = Vec::new();
        self.emit(root, Prefix::ALL, None, &mut words);
        words
    }

    fn push(&mut self, node: Node) -> usize {
        self.nodes.push(node);
        self.nodes.len() - 1
    }

    /// Adds the subtree of a prefix, and answers the number of its node.
    fn add(&mut self, row: &[u16], deferrable: &[bool; 256], prefix: Prefix) -> usize {
        let first = self.candidates.len();
        if prefix.bits == 8 {
            let byte = usize::from(prefix.value);
            self.candidates.push(row[byte]);
            return self.push(Node {
                base: 0,
                least: u32::from(!deferrable[byte]),
                bare: deferrable[byte],
                candidates: first..first + 1,
                halves: None,
            });
        }
        let (low, high) = prefix.halves();
        let low = self.add(row, deferrable, low);
        let high = self.add(row, deferrable, high);
        let node = self.join(low, high);
        self.push(node)
    }

    /// The node of a whole from those of its halves.
    fn join(&mut self, low: usize, high: usize) -> Node {
        let first = self.candidates.len();
        let (l, h) = (&self.nodes[low], &self.nodes[high]);
        let (lows, highs) = (l.candidates.clone(), h.candidates.clone());
        for i in lows.clone() {
            let state = self.candidates[i];
            if self.candidates[highs.clone()].contains(&state) {
                self.candidates.push(state);
            }
        }
        let apart = self.candidates.len() == first;
        if apart {
            self.candidates.extend_from_within(lows);
            self.candidates.extend_from_within(highs);
        }
        let base = l.base + h.base + u32::from(apart);
        let split = l.least + h.least;
        Node {
            base,
            least: split.min(base + 1),
            bare: split <= base + 1,
            candidates: first..self.candidates.len(),
            halves: Some((low, high)),
        }
    }

    /// The decision of a word that covers the subtree, where a shortest list below `above` has one.
    fn covering(&self, node: &Node, above: Option<u16>) -> Option<u16> {
        let candidates = &self.candidates[node.candidates.clone()];
        let bare = above.map_or(node.bare, |state| candidates.contains(&state));
        if bare { None } else { Some(candidates[0]) }
    }

    /// Appends a shortest list for the bytes of a prefix, below a word that decides `above`.
    fn emit(&self, node: usize, prefix: Prefix, above: Option<u16>, words: &mut Vec<PrefixWord>) {
        let node = &self.nodes[node];
        let covering = self.covering(node, above);
        if let Some((low, high)) = node.halves {
            let below = covering.or(above);
            let (low_prefix, high_prefix) = prefix.halves();
            self.emit(low, low_prefix, below, words);
            self.emit(high, high_prefix, below, words);
        }
        if let Some(next) = covering {
            words.push(PrefixWord {
                bits: prefix.bits,
                value: prefix.value,
                next,
            });
        }
    }
}
