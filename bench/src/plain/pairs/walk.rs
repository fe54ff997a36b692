//! The walk of a piece over a two-byte and a one-byte card, and the scanner above it.

use super::check::check as check_pairs;
use super::image::unpack as unpack_pairs;
use super::words::{PairCard, Stride};
use crate::plain::check::check;
use crate::plain::image::unpack;
use crate::plain::list::Card;
use crate::plain::walk::LONGEST_PIECE;
use crate::plain::words::{Automaton, Mark, Progress, Refusal};

/// How far a walk has come.
struct Way<'m> {
    taken: usize,
    written: usize,
    code: u16,
    searches: usize,
    marks: &'m mut [Mark],
}

impl Way<'_> {
    /// Takes so many bytes, unless the mark of the last has no slot.
    fn take(&mut self, bytes: usize, next: u16, class: u8) -> bool {
        if class != 0 {
            let Some(slot) = self.marks.get_mut(self.written) else {
                return false;
            };
            *slot = Mark {
                place: (self.taken + bytes - 1) as u16,
                class,
            };
            self.written += 1;
        }
        self.taken += bytes;
        self.code = next;
        true
    }

    fn stopped(&self, marks_full: bool) -> Progress {
        Progress {
            taken: self.taken,
            marks: self.written,
            code: self.code,
            marks_full,
            searches: self.searches,
        }
    }

    /// The first of two bytes alone, where the mark of the second has no slot.
    fn first_alone<C: Card>(&mut self, one: &C, byte: u8) -> Result<Progress, Refusal> {
        self.searches += 1;
        match one.search(self.code, byte) {
            None => Err(Refusal::NoEntry(self.stopped(false))),
            Some((next, class)) => {
                if class == 0 {
                    self.take(1, next, 0);
                }
                Ok(self.stopped(true))
            }
        }
    }
}

/// Takes leading bytes of the piece while each has an entry and the marks fit the buffer, two in a search where it may.
pub fn walk<C: Card>(
    two: &PairCard,
    one: &C,
    from: u16,
    piece: &[u8],
    marks: &mut [Mark],
) -> Result<Progress, Refusal> {
    if piece.len() > LONGEST_PIECE {
        return Err(Refusal::PieceTooLong);
    }
    let mut way = Way {
        taken: 0,
        written: 0,
        code: from,
        searches: 0,
        marks,
    };
    while let [byte, second, ..] = piece[way.taken..] {
        way.searches += 1;
        let Some((next, class, stride)) = two.search(way.code, byte, second) else {
            return Err(Refusal::NoEntry(way.stopped(false)));
        };
        if !way.take(stride.bytes(), next, class) {
            return match stride {
                Stride::One => Ok(way.stopped(true)),
                Stride::Two => way.first_alone(one, byte),
            };
        }
    }
    if let [byte] = piece[way.taken..] {
        way.searches += 1;
        let Some((next, class)) = one.search(way.code, byte) else {
            return Err(Refusal::NoEntry(way.stopped(false)));
        };
        if !way.take(1, next, class) {
            return Ok(way.stopped(true));
        }
    }
    Ok(way.stopped(false))
}

/// Two cards with an automaton's tables, and the code that it has come to.
pub struct PairScanner<C> {
    two: PairCard,
    one: C,
    code: u16,
}

impl<C: Card> PairScanner<C> {
    /// Checks two images against their automaton and each other, and fills the cards with their entries.
    pub fn load(
        mut two: PairCard,
        mut one: C,
        automaton: &Automaton<'_>,
        two_image: &[u8],
        one_image: &[u8],
    ) -> Result<PairScanner<C>, Refusal> {
        check_pairs(automaton, two_image)?;
        check(automaton, one_image)?;
        let (pairs, image) = (unpack_pairs(two_image)?, unpack(one_image)?);
        if pairs.width() != image.width() || !pairs.codes().eq(image.codes()) {
            return Err(Refusal::CodesDiffer);
        }
        let fits = usize::from(pairs.entries) <= two.capacity()
            && usize::from(image.entries) <= one.capacity();
        if !fits {
            return Err(Refusal::CardTooSmall);
        }
        two.clear();
        one.clear();
        for entry in pairs.entries() {
            two.append(entry)?;
        }
        for entry in image.entries() {
            one.append(entry)?;
        }
        let code = image.code(automaton.start);
        Ok(PairScanner { two, one, code })
    }

    /// Walks over the piece from the own code, and stays at the code reached.
    pub fn feed(&mut self, piece: &[u8], marks: &mut [Mark]) -> Result<Progress, Refusal> {
        let answer = walk(&self.two, &self.one, self.code, piece, marks);
        if let Ok(progress) | Err(Refusal::NoEntry(progress)) = answer {
            self.code = progress.code;
        }
        answer
    }
}
