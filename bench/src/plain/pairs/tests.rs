//! Figures worked out by hand from `docs/RULES.md`.

use super::build::build;
use super::check::{check, check_straight};
use super::image::unpack;
use super::walk::PairScanner;
use super::words::PairCard;
use crate::automata::Owned;
use crate::plain::list::ListCard;
use crate::plain::words::{Automaton, Mark, Refusal};

/// The two-byte image of the automaton that marks each "ab".
const AB: &[u8; 66] = b"\
    \x03\x00\x00\x00\x3d\x02\x00\x03\x00\x00\x00\x04\
    \x00\x00\x00\x01\x00\x02\
    \x00\x01\x00\x03\x62\xff\x00\x00\x00\x02\x07\x01\
    \x00\x00\x00\x00\x61\xff\x00\x00\x00\x01\x00\x01\
    \x00\x00\x00\x00\x00\x00\x61\xff\x00\x01\x00\x02\
    \x00\x00\x00\x00\x00\x00\x00\x00\x00\x00\x00\x02";

fn ab() -> Owned {
    let mut successors = vec![0; 3 * 256];
    for state in 0..3 {
        successors[256 * state + 0x61] = 1;
    }
    successors[256 + 0x62] = 2;
    Owned {
        start: 0,
        successors,
        classes: vec![0, 0, 7],
    }
}

fn built(automaton: &Automaton<'_>) -> Vec<u8> {
    let mut work = vec![0; 512 * 512 + 8192];
    let mut out = vec![0; 50_188];
    let size = build(automaton, &mut work, &mut out).unwrap();
    out.truncate(size);
    out
}

fn built_single(automaton: &Automaton<'_>) -> Vec<u8> {
    let mut work = vec![0; 512 * 512 + 8192];
    let mut out = vec![0; 37_900];
    let size = crate::plain::build::build(automaton, &mut work, &mut out).unwrap();
    out.truncate(size);
    out
}

fn refused(image: &[u8], why: Refusal) {
    let ab = ab();
    assert_eq!(check(&ab.lent(), image), Err(why));
    assert_eq!(check_straight(&ab.lent(), image), Err(why));
}

#[test]
fn ab_is_built_and_accepted() {
    let ab = ab();
    assert_eq!(built(&ab.lent()), AB);
    assert_eq!(check(&ab.lent(), AB), Ok(()));
    assert_eq!(check_straight(&ab.lent(), AB), Ok(()));
}

#[test]
fn wrong_images_are_refused() {
    let mut swapped = *AB;
    let (a, b) = swapped[42..66].split_at_mut(12);
    a.swap_with_slice(b);
    refused(&swapped, Refusal::WrongPair(0, 0, 0x61));
    let mut short = AB[..54].to_vec();
    short.copy_within(30..54, 18);
    short.truncate(54);
    short[18..54].copy_from_slice(&AB[30..66]);
    short[4] = 49;
    short[11] = 3;
    refused(&short, Refusal::WrongPair(1, 0x62, 0));
}

#[test]
fn faults_are_found_in_the_order_of_the_file() {
    for (place, byte, fault) in [(0, 1, 0), (22, 0x63, 22), (24, 1, 24), (29, 3, 29), (29, 0, 29)] {
        let mut image = *AB;
        image[place] = byte;
        if place == 22 {
            image[23] = 0xfe;
        }
        assert_eq!(unpack(&image).map(|_| ()), Err(Refusal::Malformed(fault)));
    }
}

fn fed(slots: usize, piece: &[u8]) -> (usize, usize, u16, bool, usize) {
    let ab = ab();
    let ab = ab.lent();
    let one = built_single(&ab);
    let mut scanner =
        PairScanner::load(PairCard::new(4), ListCard::new(3), &ab, AB, &one).unwrap();
    let mut marks = vec![Mark::default(); slots];
    let p = scanner.feed(piece, &mut marks).unwrap();
    (p.taken, p.marks, p.code, p.marks_full, p.searches)
}

#[test]
fn ab_is_fed() {
    assert_eq!(fed(2, b"xabab"), (5, 2, 2, false, 4));
    assert_eq!(fed(1, b"xabab"), (4, 1, 1, true, 4));
    assert_eq!(fed(0, b"xx"), (2, 0, 0, false, 1));
    assert_eq!(fed(0, b"x"), (1, 0, 0, false, 1));
    assert_eq!(fed(0, b""), (0, 0, 0, false, 0));
}

#[test]
fn the_first_byte_is_taken_alone() {
    let mut successors = vec![0; 2 * 256];
    successors[0x62] = 1;
    successors[256 + 0x62] = 1;
    let b = Owned {
        start: 0,
        successors,
        classes: vec![0, 7],
    };
    let b = b.lent();
    let (two, one) = (built(&b), built_single(&b));
    let mut scanner =
        PairScanner::load(PairCard::new(3), ListCard::new(2), &b, &two, &one).unwrap();
    let p = scanner.feed(b"xb", &mut []).unwrap();
    assert_eq!((p.taken, p.code, p.marks_full, p.searches), (1, 0, true, 2));
}
