//! The same loop around the plain scanner over two cards as the static library has around the proved one.

use crate::plain::list::ListCard;
use crate::plain::pairs::walk::PairScanner;
use crate::plain::pairs::words::PairCard;
use crate::plain::words::{Automaton, MOST_ENTRIES, Mark};

/// The mark slots of a feed.
const SLOTS: usize = 4096;

fn mixed(sum: u64, number: u64) -> u64 {
    sum.rotate_left(5) ^ number
}

fn fed(scanner: &mut PairScanner<ListCard>, piece: &[u8], marks: &mut [Mark], sum: u64) -> u64 {
    match scanner.feed(piece, marks) {
        Ok(progress) => {
            let sum = mixed(sum, progress.taken as u64);
            let sum = mixed(sum, progress.code.into());
            let sum = mixed(sum, progress.searches as u64);
            marks[..progress.marks].iter().fold(sum, |sum, mark| {
                mixed(sum, 256 * u64::from(mark.place) + u64::from(mark.class))
            })
        }
        Err(why) => mixed(sum, why.number().into()),
    }
}

/// A scanner over two list cards that is loaded, or the number of the refusal.
fn loaded(
    automaton: &Automaton<'_>,
    two_image: &[u8],
    one_image: &[u8],
) -> Result<PairScanner<ListCard>, u64> {
    let (two, one) = (PairCard::new(MOST_ENTRIES), ListCard::new(MOST_ENTRIES));
    let scanner = PairScanner::load(two, one, automaton, two_image, one_image);
    scanner.map_err(|why| why.number().into())
}

/// Loads a scanner over two list cards and feeds it a piece so many times.
pub fn feed(
    automaton: &Automaton<'_>,
    two_image: &[u8],
    one_image: &[u8],
    piece: &[u8],
    count: u32,
) -> u64 {
    let mut scanner = match loaded(automaton, two_image, one_image) {
        Ok(scanner) => scanner,
        Err(number) => return number,
    };
    let mut marks = vec![Mark::default(); SLOTS];
    (0..count).fold(0, |sum, _| fed(&mut scanner, piece, &mut marks, sum))
}

/// The bytes of a piece for each search that a feed of it makes.
pub fn bytes_a_search(
    automaton: &Automaton<'_>,
    two_image: &[u8],
    one_image: &[u8],
    piece: &[u8],
) -> f64 {
    let mut scanner = loaded(automaton, two_image, one_image).ok().expect("loaded");
    let mut marks = vec![Mark::default(); SLOTS];
    let progress = scanner.feed(piece, &mut marks).expect("fed");
    progress.taken as f64 / progress.searches as f64
}
