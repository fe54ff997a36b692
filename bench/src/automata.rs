//! The automata, tables and streams that are measured. All are the same in each run.

use crate::plain::words::{Automaton, Entry};
use std::collections::{BTreeMap, VecDeque};

/// An automaton that owns its buffers.
pub struct Owned {
    pub start: u16,
    pub successors: Vec<u16>,
    pub classes: Vec<u8>,
}

impl Owned {
    pub fn lent(&self) -> Automaton<'_> {
        Automaton {
            states: self.classes.len() as u16,
            start: self.start,
            successors: &self.successors,
            classes: &self.classes,
        }
    }
}

/// Pseudo-random numbers (xorshift).
pub struct Random(u64);

impl Random {
    pub fn new(seed: u64) -> Random {
        Random(seed.wrapping_mul(0x9e37_79b9_7f4a_7c15) | 1)
    }

    /// A number below `bound`.
    pub fn below(&mut self, bound: usize) -> usize {
        self.0 ^= self.0 << 13;
        self.0 ^= self.0 >> 7;
        self.0 ^= self.0 << 17;
        (self.0 >> 33) as usize % bound
    }
}

/// Every state marks, but for one in four.
fn classes(states: usize) -> Vec<u8> {
    (0..states).map(|s| (s % 4) as u8).collect()
}

fn from_rows(states: usize, next: impl FnMut(usize) -> u16) -> Owned {
    Owned {
        start: 0,
        successors: (0..256 * states).map(next).collect(),
        classes: classes(states),
    }
}

/// All states go to state 0.
pub fn all_to_one(states: usize) -> Owned {
    from_rows(states, |_| 0)
}

/// Each state goes to the next on one byte, and to state 0 on all others.
pub fn one_byte_on(states: usize) -> Owned {
    from_rows(states, |at| {
        let (state, byte) = (at / 256, at % 256);
        if byte == 37 * state % 256 {
            ((state + 1) % states) as u16
        } else {
            0
        }
    })
}

/// Every other byte leads to a state of its own, whatever the state, and one more byte of each state leads on; all others
/// lead to state 0.
pub fn half_on(states: usize) -> Owned {
    from_rows(states, |at| {
        let (state, byte) = (at / 256, at % 256);
        if byte % 2 == 1 {
            (1 + byte / 2) as u16
        } else if byte == 74 * state % 256 {
            ((state + 1) % states) as u16
        } else {
            0
        }
    })
}

/// Each byte leads to a state of its own, whatever the state.
pub fn own_state(states: usize) -> Owned {
    from_rows(states, |at| (at % 256) as u16)
}

/// The successors of each state are one of four, pseudo-random for each 32 bytes: no state shares all with another.
pub fn eight_blocks(states: usize) -> Owned {
    let mut random = Random::new(8);
    let blocks: Vec<u16> = (0..8 * states).map(|_| random.below(4) as u16).collect();
    from_rows(states, |at| blocks[at / 32])
}

/// Each state but the first goes on eight pseudo-random bytes to pseudo-random states, and else to state 0. With 512 states
/// that makes nearly as many entries as a table may have.
pub fn eight_bytes(states: usize) -> Owned {
    let mut random = Random::new(3);
    let mut owned = from_rows(states, |_| 0);
    for row in owned.successors.chunks_exact_mut(256).skip(1) {
        let mut left = 8;
        while left > 0 {
            let place = &mut row[random.below(256)];
            if *place == 0 {
                *place = 1 + random.below(states - 1) as u16;
                left -= 1;
            }
        }
    }
    owned
}

/// A word of two to four syllables.
fn word(random: &mut Random) -> Vec<u8> {
    let syllables = 2 + random.below(3);
    (0..syllables)
        .flat_map(|_| [b"bdfgklmnprstvz"[random.below(14)], b"aeiou"[random.below(5)]])
        .collect()
}

/// The automaton that marks the ends of words in a text: a trie of words, where a byte that no word goes on with leads on
/// from the longest end of the text that is in the trie too. Words are added as long as the states suffice.
pub fn words_automaton(states: usize) -> Owned {
    let mut random = Random::new(5);
    let mut trie = vec![BTreeMap::<u8, u16>::new()];
    let mut classes = vec![0u8];
    loop {
        let word = word(&mut random);
        if trie.len() + word.len() > states {
            break;
        }
        let mut at = 0;
        for byte in word {
            let new = trie.len() as u16;
            let next = *trie[at].entry(byte).or_insert(new);
            if next == new {
                trie.push(BTreeMap::new());
                classes.push(0);
            }
            at = usize::from(next);
        }
        classes[at] = 1 + random.below(255) as u8;
    }
    Owned {
        start: 0,
        successors: complete(&trie, &mut classes),
        classes,
    }
}

/// The successors of a trie's states on all bytes, by the longest proper end of each state's text that is in the trie.
fn complete(trie: &[BTreeMap<u8, u16>], classes: &mut [u8]) -> Vec<u16> {
    let mut successors = vec![0u16; 256 * trie.len()];
    let mut ends = vec![0usize; trie.len()];
    let mut open = VecDeque::from([0usize]);
    while let Some(state) = open.pop_front() {
        let end = ends[state];
        if classes[state] == 0 {
            classes[state] = classes[end];
        }
        for byte in 0..256 {
            let beyond = if state == 0 { 0 } else { successors[256 * end + byte] };
            successors[256 * state + byte] = match trie[state].get(&(byte as u8)) {
                Some(&child) => {
                    ends[usize::from(child)] = usize::from(beyond);
                    open.push_back(usize::from(child));
                    child
                }
                None => beyond,
            };
        }
    }
    successors
}

/// A text of words, in part those of `words_automaton`.
pub fn text(length: usize) -> Vec<u8> {
    let mut random = Random::new(5);
    let mut text = Vec::with_capacity(length + 16);
    while text.len() < length {
        text.extend(word(&mut random));
        text.push(b' ');
    }
    text.truncate(length);
    text
}

/// A stream with a word now and then between bytes that no word has.
pub fn seldom(length: usize) -> Vec<u8> {
    let mut random = Random::new(21);
    let mut stream = Vec::with_capacity(length + 256);
    while stream.len() < length {
        stream.extend((0..150 + random.below(100)).map(|_| b'0' + random.below(10) as u8));
        stream.extend(word(&mut random));
    }
    stream.truncate(length);
    stream
}

/// A stream of the letters of the words, in any order.
pub fn letters(length: usize) -> Vec<u8> {
    let mut random = Random::new(22);
    let letters = b"bdfgklmnprstvzaeiou";
    (0..length).map(|_| letters[random.below(letters.len())]).collect()
}

/// A stream of any bytes.
pub fn uniform(length: usize) -> Vec<u8> {
    let mut random = Random::new(23);
    (0..length).map(|_| random.below(256) as u8).collect()
}

/// A stream that an automaton goes astray on: at each state a byte that leads to another state than 0, where there is one.
pub fn astray(automaton: &Automaton<'_>, length: usize) -> Vec<u8> {
    let mut random = Random::new(13);
    let mut state = usize::from(automaton.start);
    let mut stream = Vec::with_capacity(length);
    for _ in 0..length {
        let first = random.below(256);
        let row = automaton.row(state);
        let byte = (0..256)
            .map(|n| (first + n) % 256)
            .find(|&byte| row[byte] != 0)
            .unwrap_or(first);
        stream.push(byte as u8);
        state = usize::from(row[byte]);
    }
    stream
}

/// A table whose entry `i` matches the code `i` alone, on every byte.
pub fn one_code_each(entries: usize) -> Vec<Entry> {
    (0..entries as u16)
        .map(|i| Entry::new(i, 0xffff, 0, 0, i ^ 0x1234, (i % 251) as u8))
        .collect()
}
