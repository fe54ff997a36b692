//! The walk of a piece over a card, and the scanner above it.

use super::check::check;
use super::image::unpack;
use super::list::Card;
use super::words::{Automaton, Mark, Progress, Refusal};

/// The most bytes that one piece may have.
pub const LONGEST_PIECE: usize = 65_536;

/// Takes leading bytes of the piece while each has an entry and the marks fit the buffer.
pub fn walk<C: Card>(
    card: &C,
    from: u16,
    piece: &[u8],
    marks: &mut [Mark],
) -> Result<Progress, Refusal> {
    if piece.len() > LONGEST_PIECE {
        return Err(Refusal::PieceTooLong);
    }
    let stopped = |taken, marks, code, marks_full| Progress {
        taken,
        marks,
        code,
        marks_full,
        searches: taken + 1,
    };
    let mut code = from;
    let mut written = 0;
    for (i, &byte) in piece.iter().enumerate() {
        let Some((next, class)) = card.search(code, byte) else {
            return Err(Refusal::NoEntry(stopped(i, written, code, false)));
        };
        if class != 0 {
            let Some(slot) = marks.get_mut(written) else {
                return Ok(stopped(i, written, code, true));
            };
            *slot = Mark {
                place: i as u16,
                class,
            };
            written += 1;
        }
        code = next;
    }
    Ok(Progress {
        taken: piece.len(),
        marks: written,
        code,
        marks_full: false,
        searches: piece.len(),
    })
}

/// Checks an image against its automaton, and fills a card with its entries: the code of the start state.
pub fn load_card<C: Card>(
    card: &mut C,
    automaton: &Automaton<'_>,
    image: &[u8],
) -> Result<u16, Refusal> {
    check(automaton, image)?;
    let image = unpack(image)?;
    if usize::from(image.entries) > card.capacity() {
        return Err(Refusal::CardTooSmall);
    }
    card.clear();
    for entry in image.entries() {
        card.append(entry)?;
    }
    Ok(image.code(automaton.start))
}

/// A card with an automaton's table, and the code that it has come to.
pub struct Scanner<C> {
    card: C,
    code: u16,
}

impl<C: Card> Scanner<C> {
    /// Checks an image against its automaton, and fills a card with its entries.
    pub fn load(
        mut card: C,
        automaton: &Automaton<'_>,
        image: &[u8],
    ) -> Result<Scanner<C>, Refusal> {
        let code = load_card(&mut card, automaton, image)?;
        Ok(Scanner { card, code })
    }

    /// Walks over the piece from the own code, and stays at the code reached.
    pub fn feed(&mut self, piece: &[u8], marks: &mut [Mark]) -> Result<Progress, Refusal> {
        let answer = walk(&self.card, self.code, piece, marks);
        if let Ok(progress) | Err(Refusal::NoEntry(progress)) = answer {
            self.code = progress.code;
        }
        answer
    }
}
