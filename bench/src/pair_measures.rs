//! What is measured of tables that take two bytes in a search.

use crate::automata::{
    Owned, all_to_one, astray, eight_blocks, eight_bytes, half_on, letters, one_byte_on, own_state,
    seldom, text, uniform, words_automaton,
};
use crate::measures::{PIECE, image_of, nanoseconds};
use crate::plain::forest::work_needed;
use crate::plain::pairs::build::build;
use crate::plain::pairs::check::{check, check_straight};
use crate::plain::pairs::image::{pack, unpack};
use crate::plain::pairs::words::PairEntry;
use crate::plain::words::{Automaton, MOST_ENTRIES, MOST_STATES};
use crate::report::{Bar, heading, line};
use crate::timing::best_in_turn;
use crate::{ours, pair_ours, pair_rounds, rounds};
use std::hint::black_box;

/// The bytes of the largest two-byte image.
const LARGEST_PAIR_IMAGE: usize = 12 + 2 * MOST_STATES + 12 * MOST_ENTRIES;

/// The two-byte image that both sides build of an automaton, byte for byte the same.
fn pair_image_of(automaton: &Automaton<'_>) -> Vec<u8> {
    let mut work = vec![0; work_needed(MOST_STATES)];
    let mut mine = vec![0; LARGEST_PAIR_IMAGE];
    let mut out = vec![0; LARGEST_PAIR_IMAGE];
    let size = build(automaton, &mut work, &mut out).expect("built");
    assert_eq!(pair_ours::build(automaton, &mut work, &mut mine), size);
    assert_eq!(mine, out);
    out.truncate(size);
    out
}

/// The same table with each entry in two halves, by the first bit of the second byte that it does not compare.
fn halved(image: &[u8]) -> Vec<u8> {
    let parts = unpack(image).expect("an image");
    let codes: Vec<u16> = parts.codes().collect();
    let entries: Vec<PairEntry> = parts
        .entries()
        .flat_map(|e| match e.second_mask {
            0 => vec![half(e, 0), half(e, 0x80)],
            _ => vec![e],
        })
        .collect();
    let mut out = vec![0; LARGEST_PAIR_IMAGE];
    let size = pack(parts.width(), parts.start, &codes, &entries, &mut out).expect("packed");
    out.truncate(size);
    out
}

/// An entry for second bytes with this first bit alone.
fn half(e: PairEntry, first_bit: u8) -> PairEntry {
    PairEntry {
        second_value: first_bit,
        second_mask: 0x80,
        ..e
    }
}

fn named(what: &str, automaton: &Automaton<'_>, image: &[u8]) -> String {
    let entries = unpack(image).expect("an image").entries;
    format!("{what}: {} states, {entries} entries", automaton.states)
}

/// A build of 512 states, of each kind.
pub fn builds() {
    heading("Build of a two-byte image", "ours", "plain");
    for (what, owned) in [
        ("all go to one state", all_to_one(MOST_STATES)),
        ("one byte leads on", one_byte_on(MOST_STATES)),
        ("every other byte leads on", half_on(MOST_STATES)),
        ("four successors, in eight blocks", eight_blocks(MOST_STATES)),
        ("words in a text", words_automaton(MOST_STATES)),
        ("eight bytes lead astray", eight_bytes(MOST_STATES)),
    ] {
        let automaton = owned.lent();
        let image = pair_image_of(&automaton);
        let mut work = [(); 2].map(|()| vec![0; work_needed(MOST_STATES)]);
        let mut out = [(); 2].map(|()| vec![0; LARGEST_PAIR_IMAGE]);
        let [work_a, work_b] = &mut work;
        let [out_a, out_b] = &mut out;
        let [mine, plain] = best_in_turn(
            15,
            [
                &mut || _ = black_box(pair_ours::build(black_box(&automaton), work_a, out_a)),
                &mut || _ = black_box(build(black_box(&automaton), work_b, out_b)),
            ],
        )
        .map(nanoseconds);
        line(&named(what, &automaton, &image), mine, plain, Bar::AtMost(1.3));
    }
}

/// The images that are checked, with their automata.
fn checked() -> Vec<(&'static str, Owned, Vec<u8>)> {
    let built = |what, owned: Owned| {
        let image = pair_image_of(&owned.lent());
        (what, owned, image)
    };
    let mut images = vec![
        built("words in a text", words_automaton(MOST_STATES)),
        built("every other byte leads on", half_on(MOST_STATES)),
        built("a full table", eight_bytes(MOST_STATES)),
    ];
    let each = own_state(MOST_STATES);
    let image = halved(&pair_image_of(&each.lent()));
    images.push(("no second byte left out", each, image));
    images
}

/// A check of a built image, and of one in which no first byte is settled by one entry or like another.
pub fn checks() {
    let mut times = Vec::new();
    for (what, owned, image) in &checked() {
        let automaton = owned.lent();
        assert_eq!(pair_ours::check(&automaton, image), 0);
        assert_eq!(check(&automaton, image), Ok(()));
        assert_eq!(check_straight(&automaton, image), Ok(()));
        let [mine, plain] = best_in_turn(
            15,
            [
                &mut || _ = black_box(pair_ours::check(black_box(&automaton), image)),
                &mut || _ = black_box(check(black_box(&automaton), image)),
            ],
        );
        let [straight] = best_in_turn(
            2,
            [&mut || _ = black_box(check_straight(black_box(&automaton), image))],
        );
        let best = [mine, plain, straight].map(nanoseconds);
        times.push((named(what, &automaton, image), best));
    }
    heading("Check of a two-byte image", "ours", "plain");
    for (what, [mine, plain, _]) in &times {
        line(what, *mine, *plain, Bar::AtMost(1.3));
    }
    heading(
        "Check of a two-byte image, beside plain Rust that looks at each two bytes",
        "ours",
        "plain, straight",
    );
    for (what, [mine, _, straight]) in &times {
        line(what, *mine, *straight, Bar::None);
    }
}

/// The times of a byte: two bytes a search, ours and plain, and one byte a search, ours and plain. That of the load is taken
/// off.
fn feed_times(
    automaton: &Automaton<'_>,
    two: &[u8],
    one: &[u8],
    piece: &[u8],
    count: u32,
) -> [f64; 4] {
    let run = |n: usize, count: u32| {
        let a = black_box(automaton);
        black_box(match n {
            0 => pair_ours::feed(a, two, one, piece, count),
            1 => pair_rounds::feed(a, two, one, piece, count),
            2 => ours::feed(a, one, piece, count),
            _ => rounds::feed(a, one, piece, count),
        })
    };
    assert_eq!(run(0, 3), run(1, 3));
    assert_eq!(run(2, 3), run(3, 3));
    assert_ne!(run(0, 3), 0);
    let times = |count| {
        best_in_turn(
            7,
            [
                &mut || _ = run(0, count),
                &mut || _ = run(1, count),
                &mut || _ = run(2, count),
                &mut || _ = run(3, count),
            ],
        )
    };
    let (load, all) = (times(0), times(count));
    let bytes = f64::from(count) * piece.len() as f64;
    std::array::from_fn(|n| (nanoseconds(all[n]) - nanoseconds(load[n])) / bytes)
}

/// Feeds on list cards: the time of a byte, and how many bytes a search takes.
pub fn feeds() {
    let (medium, words, full) = (
        words_automaton(64),
        words_automaton(MOST_STATES),
        eight_bytes(MOST_STATES),
    );
    let stray = astray(&full.lent(), PIECE);
    let mut times = Vec::new();
    for (what, owned, stream, piece, count) in [
        ("words", &medium, "sparse", seldom(PIECE), 200),
        ("words", &medium, "dense", text(PIECE), 200),
        ("words", &medium, "random letters", letters(PIECE), 200),
        ("words", &medium, "random", uniform(PIECE), 200),
        ("words", &words, "sparse", seldom(PIECE), 100),
        ("words", &words, "dense", text(PIECE), 100),
        ("words", &words, "random letters", letters(PIECE), 100),
        ("words", &words, "random", uniform(PIECE), 100),
        ("a full table", &full, "dense", stray, 60),
        ("a full table", &full, "random", uniform(PIECE), 60),
    ] {
        let automaton = owned.lent();
        let (one, two) = (image_of(&automaton), pair_image_of(&automaton));
        let taken = pair_rounds::bytes_a_search(&automaton, &two, &one, &piece);
        let best = feed_times(&automaton, &two, &one, &piece, count);
        let what = format!("{what}, {} states, {stream}", automaton.states);
        times.push((what, taken, best));
    }
    heading("Feed of two bytes a search on list cards, for each byte", "ours", "plain");
    for (what, _, [mine, plain, _, _]) in &times {
        line(what, *mine, *plain, Bar::AtMost(1.3));
    }
    heading("Feed on list cards, ours, for each byte", "two bytes", "one byte");
    for (what, taken, [two, _, one, _]) in &times {
        let what = format!("{what}: {taken:.2} bytes a search");
        line(&what, *two, *one, Bar::None);
    }
}
