//! Scanners of many coaches over one card, fed in turn.

use super::list::Card;
use super::walk::walk;
use super::words::{Mark, Progress, Refusal};

/// How many scanners are fed.
pub const COACHES: usize = 64;

/// A scanner over a card that others use too: the code that it has come to, and the bytes that wait for it.
struct Scanner<'a> {
    code: u16,
    waiting: &'a [u8],
}

impl Scanner<'_> {
    /// Walks over the first bytes that wait, no more than the quota, and stays behind the bytes taken.
    fn feed<C: Card>(
        &mut self,
        card: &C,
        marks: &mut [Mark],
        quota: usize,
    ) -> Result<Progress, Refusal> {
        let piece = &self.waiting[..self.waiting.len().min(quota)];
        let answer = walk(card, self.code, piece, marks);
        if let Ok(progress) | Err(Refusal::NoEntry(progress)) = answer {
            self.code = progress.code;
            self.waiting = &self.waiting[progress.taken..];
        }
        answer
    }
}

/// The scanners over one card, and the one whose turn is next.
pub struct Turns<'a, C> {
    card: C,
    scanners: [Scanner<'a>; COACHES],
    next: usize,
}

impl<'a, C: Card> Turns<'a, C> {
    /// The scanners at a code, each with these bytes waiting.
    pub fn new(card: C, code: u16, waiting: &'a [u8]) -> Turns<'a, C> {
        Turns {
            card,
            scanners: [(); COACHES].map(|()| Scanner { code, waiting }),
            next: 0,
        }
    }

    /// Feeds the next scanner with bytes waiting, after the one fed last: its number, and what it answers.
    pub fn turn(
        &mut self,
        marks: &mut [Mark],
        quota: usize,
    ) -> Option<(usize, Result<Progress, Refusal>)> {
        let mut in_turn = (0..COACHES).map(|steps| (self.next + steps) % COACHES);
        let at = in_turn.find(|&at| !self.scanners[at].waiting.is_empty())?;
        self.next = (at + 1) % COACHES;
        let answer = self.scanners[at].feed(&self.card, marks, quota);
        Some((at, answer))
    }
}
