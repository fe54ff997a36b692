//! The worked figures of `docs/RULES.md`.

use super::build::{build, build_sorted};
use super::check::check;
use super::column::ColumnCard;
use super::forest::plan;
use super::image::unpack;
use super::list::{Card, ListCard};
use super::turns::Turns;
use super::walk::{Scanner, load_card, walk};
use super::words::{Automaton, Entry, Mark, Refusal};
use crate::automata::{Owned, eight_blocks, words_automaton};

const IMAGE: [u8; 45] = [
    0x01, 0x00, 0x00, 0x00, 0x28, 0x02, 0x00, 0x03, 0x00, 0x00, 0x00, 0x03, 0x00, 0x00, 0x00, 0x01,
    0x00, 0x02, 0x00, 0x01, 0x00, 0x03, 0x62, 0xff, 0x00, 0x02, 0x07, 0x00, 0x00, 0x00, 0x00, 0x61,
    0xff, 0x00, 0x01, 0x00, 0x00, 0x00, 0x00, 0x00, 0x00, 0x00, 0x00, 0x00, 0x00,
];

fn ab() -> Owned {
    let mut successors = vec![0; 3 * 256];
    for state in 0..3 {
        successors[256 * state + 0x61] = 1;
    }
    successors[256 + 0x62] = 2;
    Owned {
        start: 0,
        successors,
        classes: vec![0, 0, 7],
    }
}

fn built(automaton: &Automaton<'_>) -> Vec<u8> {
    let mut work = vec![0; 512 * 512 + 8192];
    let mut out = vec![0; 37_900];
    let size = build(automaton, &mut work, &mut out).unwrap();
    let mut other = vec![0; 37_900];
    assert_eq!(build_sorted(automaton, &mut work, &mut other), Ok(size));
    assert_eq!(out, other);
    out.truncate(size);
    out
}

#[test]
fn ab_is_built() {
    let ab = ab();
    assert_eq!(built(&ab.lent()), IMAGE);
    assert_eq!(check(&ab.lent(), &IMAGE), Ok(()));
}

#[test]
fn wrong_images_are_refused() {
    let ab = ab();
    let mut swapped = IMAGE;
    let (a, b) = swapped[27..45].split_at_mut(9);
    a.swap_with_slice(b);
    let wrong = Err(Refusal::WrongEntry(0, 0x61));
    assert_eq!(check(&ab.lent(), &swapped), wrong);
    let mut short = IMAGE[..36].to_vec();
    short.copy_within(27..36, 18);
    short[4] = 31;
    short[11] = 2;
    assert!(unpack(&short).is_ok());
    assert_eq!(unpack(&IMAGE[..44]).map(|_| ()), Err(Refusal::Malformed(1)));
}

fn filled<C: Card>(mut card: C) -> C {
    for entry in unpack(&IMAGE).unwrap().entries() {
        card.append(entry).unwrap();
    }
    card
}

fn walks<C: Card>(card: C) {
    let card = filled(card);
    let mut marks = [Mark::default(); 2];
    let progress = walk(&card, 0, b"xabab", &mut marks).unwrap();
    assert_eq!((progress.taken, progress.code, progress.searches), (5, 2, 5));
    assert_eq!(marks.map(|m| (m.place, m.class)), [(2, 7), (4, 7)]);
    let progress = walk(&card, 0, b"xabab", &mut marks[..1]).unwrap();
    assert_eq!((progress.taken, progress.code, progress.searches), (4, 1, 5));
    assert!(progress.marks_full);
}

#[test]
fn ab_is_walked() {
    walks(ListCard::new(3));
    walks(ColumnCard::new(3));
}

#[test]
fn ab_is_fed() {
    let ab = ab();
    let mut scanner = Scanner::load(ListCard::new(3), &ab.lent(), &IMAGE).unwrap();
    let mut marks = [Mark::default(); 4];
    assert_eq!(scanner.feed(b"xa", &mut marks).unwrap().marks, 0);
    assert_eq!(scanner.feed(b"bab", &mut marks).unwrap().marks, 2);
    let small = Scanner::load(ListCard::new(2), &ab.lent(), &IMAGE).map(|_| ());
    assert_eq!(small, Err(Refusal::CardTooSmall));
}

#[test]
fn ab_is_fed_in_turn() {
    let mut card = ListCard::new(3);
    let code = load_card(&mut card, &ab().lent(), &IMAGE).unwrap();
    let mut turns = Turns::new(card, code, b"xab");
    let mut marks = [Mark::default(); 2];
    let mut fed = || {
        turns.turn(&mut marks, 2).map(|(at, answer)| {
            let progress = answer.unwrap();
            (at, progress.taken, progress.marks, progress.code)
        })
    };
    for coach in 0..64 {
        assert_eq!(fed(), Some((coach, 2, 0, 1)));
    }
    for coach in 0..64 {
        assert_eq!(fed(), Some((coach, 1, 1, 2)));
    }
    assert_eq!(fed(), None);
}

fn chain(states: u16) -> Owned {
    let next = |s: u16, b: usize| if ((b / 8) as u16) < s { (b / 8) as u16 + 1 } else { 0 };
    Owned {
        start: 0,
        successors: (0..states)
            .flat_map(|s| (0..256).map(move |b| next(s, b)))
            .collect(),
        classes: vec![0; usize::from(states)],
    }
}

#[test]
fn chains_have_their_widths() {
    let mut work = vec![0; 512 * 512 + 8192];
    let width = |states, work: &mut Vec<u32>| plan(&chain(states).lent(), work).unwrap().width;
    assert_eq!(width(17, &mut work), 16);
    assert_eq!(width(18, &mut work), 5);
}

#[test]
fn cards_agree_on_what_was_built() {
    for owned in [chain(17), eight_blocks(512), words_automaton(512)] {
        let image = built(&owned.lent());
        assert_eq!(check(&owned.lent(), &image), Ok(()));
        let image = unpack(&image).unwrap();
        let (mut list, mut column) = (ListCard::new(4096), ColumnCard::new(4096));
        for entry in image.entries() {
            list.append(entry).unwrap();
            column.append(entry).unwrap();
        }
        for code in image.codes().chain([0xffff]) {
            for byte in [0, 1, 0x61, 0x7f, 0xff] {
                assert_eq!(list.search(code, byte), column.search(code, byte));
            }
        }
    }
}

#[test]
fn full_cards_decline() {
    let mut card = ListCard::new(0);
    assert_eq!(card.append(Entry::default()), Err(Refusal::CardFull));
}
