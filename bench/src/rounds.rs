//! The same loops around the plain calls as the static library has around the proved ones.

use crate::ours::Key;
use crate::plain::column::ColumnCard;
use crate::plain::image::unpack;
use crate::plain::list::{Card, ListCard};
use crate::plain::turns::Turns;
use crate::plain::walk::{Scanner, load_card};
use crate::plain::words::{Automaton, MOST_ENTRIES, Mark, Progress, Refusal};

/// The mark slots of a feed or a turn.
const SLOTS: usize = 4096;

fn added(sum: u64, number: u64) -> u64 {
    sum.wrapping_mul(31).wrapping_add(number)
}

fn search_rounds<C: Card>(mut card: C, image: &[u8], keys: &[Key], count: u32) -> u64 {
    let Ok(image) = unpack(image) else {
        return 0;
    };
    for entry in image.entries() {
        let _ = card.append(entry);
    }
    let found = |key: &Key| match card.search(key.code, key.byte) {
        Some((code, class)) => 1 + 256 * u64::from(code) + u64::from(class),
        None => 0,
    };
    (0..count).fold(0, |sum, _| {
        keys.iter().fold(sum, |sum, key| added(sum, found(key)))
    })
}

/// Fills a list card and searches for each key, so many times.
pub fn list_search(image: &[u8], keys: &[Key], count: u32) -> u64 {
    search_rounds(ListCard::new(MOST_ENTRIES), image, keys, count)
}

/// Fills a column card and searches for each key, so many times.
pub fn column_search(image: &[u8], keys: &[Key], count: u32) -> u64 {
    search_rounds(ColumnCard::new(MOST_ENTRIES), image, keys, count)
}

fn fed_sum(answer: Result<Progress, Refusal>, marks: &[Mark], sum: u64) -> u64 {
    match answer {
        Ok(progress) => {
            let sum = added(sum, progress.taken as u64);
            let sum = added(sum, progress.code.into());
            marks[..progress.marks].iter().fold(sum, |sum, mark| {
                added(sum, 256 * u64::from(mark.place) + u64::from(mark.class))
            })
        }
        Err(why) => added(sum, why.number().into()),
    }
}

fn fed<C: Card>(scanner: &mut Scanner<C>, piece: &[u8], marks: &mut [Mark], sum: u64) -> u64 {
    let answer = scanner.feed(piece, marks);
    fed_sum(answer, marks, sum)
}

/// Loads a scanner over a list card and feeds it a piece so many times.
pub fn feed(automaton: &Automaton<'_>, image: &[u8], piece: &[u8], count: u32) -> u64 {
    let card = ListCard::new(MOST_ENTRIES);
    let mut scanner = match Scanner::load(card, automaton, image) {
        Ok(scanner) => scanner,
        Err(why) => return why.number().into(),
    };
    let mut marks = vec![Mark::default(); SLOTS];
    (0..count).fold(0, |sum, _| fed(&mut scanner, piece, &mut marks, sum))
}

/// Loads a list card, and makes so many turns of scanners for each of which the whole buffer waits.
pub fn turns(
    automaton: &Automaton<'_>,
    image: &[u8],
    buffer: &[u8],
    quota: usize,
    count: u32,
) -> u64 {
    let mut card = ListCard::new(MOST_ENTRIES);
    let code = match load_card(&mut card, automaton, image) {
        Ok(code) => code,
        Err(why) => return why.number().into(),
    };
    let mut turns = Turns::new(card, code, buffer);
    let mut marks = vec![Mark::default(); SLOTS];
    (0..count).fold(0, |sum, _| match turns.turn(&mut marks, quota) {
        Some((coach, answer)) => fed_sum(answer, &marks, added(sum, coach as u64)),
        None => sum,
    })
}
