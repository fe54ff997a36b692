//! What is measured.

use crate::automata::{
    Owned, Random, all_to_one, astray, eight_blocks, eight_bytes, one_byte_on, one_code_each, text,
    words_automaton,
};
use crate::ours::{self, Key};
use crate::plain::build::{build, build_sorted};
use crate::plain::check::{check, check_straight};
use crate::plain::forest::work_needed;
use crate::plain::image::{pack, unpack};
use crate::plain::words::{Automaton, MOST_ENTRIES, MOST_STATES};
use crate::report::{Bar, heading, line};
use crate::rounds;
use crate::timing::best_in_turn;
use std::hint::black_box;
use std::time::Duration;

/// The bytes of the largest image.
const LARGEST_IMAGE: usize = 12 + 2 * MOST_STATES + 9 * MOST_ENTRIES;

/// The bytes of a piece that is fed.
pub const PIECE: usize = 4096;

pub fn nanoseconds(time: Duration) -> f64 {
    time.as_nanos() as f64
}

/// The image that both sides build of an automaton, byte for byte the same.
pub fn image_of(automaton: &Automaton<'_>) -> Vec<u8> {
    let mut work = vec![0; work_needed(MOST_STATES)];
    let mut mine = vec![0; LARGEST_IMAGE];
    let mut out = vec![0; LARGEST_IMAGE];
    let size = build(automaton, &mut work, &mut out).expect("built");
    assert_eq!(ours::build(automaton, &mut work, &mut mine), size);
    assert_eq!(mine, out);
    mine.fill(0);
    assert_eq!(build_sorted(automaton, &mut work, &mut mine), Ok(size));
    assert_eq!(mine, out);
    out.truncate(size);
    out
}

/// The automata that are built.
fn automata() -> [(&'static str, Owned); 5] {
    [
        ("all go to one state", all_to_one(MOST_STATES)),
        ("one byte leads on", one_byte_on(MOST_STATES)),
        ("four successors, in eight blocks", eight_blocks(MOST_STATES)),
        ("words in a text", words_automaton(MOST_STATES)),
        ("eight bytes lead astray", eight_bytes(MOST_STATES)),
    ]
}

/// A build of 512 states, of each kind.
pub fn builds() {
    let all = automata();
    let mut times = Vec::new();
    for (what, owned) in &all {
        let automaton = owned.lent();
        let image = image_of(&automaton);
        let entries = unpack(&image).expect("an image").entries;
        let states = automaton.states;
        let what = format!("{what}: {states} states, {entries} entries");
        let mut work = [(); 3].map(|()| vec![0; work_needed(MOST_STATES)]);
        let mut out = [(); 3].map(|()| vec![0; LARGEST_IMAGE]);
        let [work_a, work_b, work_c] = &mut work;
        let [out_a, out_b, out_c] = &mut out;
        let best = best_in_turn(
            15,
            [
                &mut || _ = black_box(ours::build(black_box(&automaton), work_a, out_a)),
                &mut || _ = black_box(build(black_box(&automaton), work_b, out_b)),
                &mut || _ = black_box(build_sorted(black_box(&automaton), work_c, out_c)),
            ],
        );
        times.push((what, best.map(nanoseconds)));
    }
    tables("Build", "plain Rust that sorts the pairs", "sorting", &times);
}

/// A check of a built image.
pub fn checks() {
    let mut times = Vec::new();
    for (what, owned) in [
        ("words in a text", words_automaton(MOST_STATES)),
        ("a full table", eight_bytes(MOST_STATES)),
    ] {
        let automaton = owned.lent();
        let image = image_of(&automaton);
        let entries = unpack(&image).expect("an image").entries;
        assert_eq!(ours::check(&automaton, &image), 0);
        assert_eq!(check(&automaton, &image), Ok(()));
        assert_eq!(check_straight(&automaton, &image), Ok(()));
        let best = best_in_turn(
            9,
            [
                &mut || _ = black_box(ours::check(black_box(&automaton), &image)),
                &mut || _ = black_box(check(black_box(&automaton), &image)),
                &mut || _ = black_box(check_straight(black_box(&automaton), &image)),
            ],
        );
        let what = format!("{what}: {} states, {entries} entries", automaton.states);
        times.push((what, best.map(nanoseconds)));
    }
    let other = "plain Rust that searches all entries for each byte";
    tables("Check", other, "straight", &times);
}

/// The times of a call beside plain Rust, with a bar, and beside a second plain form of it, with none.
fn tables(call: &str, other: &str, short: &str, times: &[(String, [f64; 3])]) {
    heading(call, "ours", "plain");
    for (what, [mine, plain, _]) in times {
        line(what, *mine, *plain, Bar::AtMost(1.3));
    }
    heading(&format!("{call}, beside {other}"), "ours", &format!("plain, {short}"));
    for (what, [mine, _, second]) in times {
        line(what, *mine, *second, Bar::None);
    }
}

/// Feeds on a list card: the time of a byte. The time of the load is taken off.
pub fn feeds() {
    heading("Feed on a list card, for each byte", "ours", "plain");
    let (medium, words, full) = (
        words_automaton(64),
        words_automaton(MOST_STATES),
        eight_bytes(MOST_STATES),
    );
    let stray = astray(&full.lent(), PIECE);
    for (what, owned, piece, count) in [
        ("words in a text", &medium, text(PIECE), 200),
        ("words in a text", &words, text(PIECE), 100),
        ("a full table", &full, stray, 100),
    ] {
        let automaton = owned.lent();
        let image = image_of(&automaton);
        let entries = unpack(&image).expect("an image").entries;
        let feed_ours = |count| ours::feed(black_box(&automaton), &image, &piece, count);
        let feed_plain = |count| rounds::feed(black_box(&automaton), &image, &piece, count);
        assert_eq!(feed_ours(3), feed_plain(3));
        assert_ne!(feed_ours(3), 0);
        let [mine_load, plain_load, mine, plain] = best_in_turn(
            7,
            [
                &mut || _ = black_box(feed_ours(0)),
                &mut || _ = black_box(feed_plain(0)),
                &mut || _ = black_box(feed_ours(count)),
                &mut || _ = black_box(feed_plain(count)),
            ],
        );
        let bytes = f64::from(count) * piece.len() as f64;
        let a_byte = |all, load| (nanoseconds(all) - nanoseconds(load)) / bytes;
        let what = format!("{what}: {} states, {entries} entries", automaton.states);
        let (mine, plain) = (a_byte(mine, mine_load), a_byte(plain, plain_load));
        line(&what, mine, plain, Bar::AtMost(1.3));
    }
}

/// Turns of a gateway on a list card in which all 64 coaches wait: the time of a turn. The time of the load and the posts is
/// taken off.
pub fn turns() {
    let title = "Turns with 64 coaches waiting, beside 64 plain scanners fed in turn";
    heading(title, "ours", "plain");
    let owned = words_automaton(64);
    let automaton = owned.lent();
    let image = image_of(&automaton);
    for (quota, count) in [(1, 65_536), (16, 16_384), (64, 8_192), (512, 1_024), (4_096, 256)] {
        // no coach is done before the last turn
        let buffer = text(quota * (count as usize / 64 + 1));
        let ours = |count| ours::turns(black_box(&automaton), &image, &buffer, quota, count);
        let plain = |count| rounds::turns(black_box(&automaton), &image, &buffer, quota, count);
        assert_eq!(ours(200), plain(200));
        assert_ne!(ours(200), 0);
        let [mine_load, plain_load, mine, plain] = best_in_turn(
            15,
            [
                &mut || _ = black_box(ours(0)),
                &mut || _ = black_box(plain(0)),
                &mut || _ = black_box(ours(count)),
                &mut || _ = black_box(plain(count)),
            ],
        );
        let a_turn = |all, load| (nanoseconds(all) - nanoseconds(load)) / f64::from(count);
        let (mine, plain) = (a_turn(mine, mine_load), a_turn(plain, plain_load));
        let a_second = 1e9 / mine;
        let what = format!("quota {quota}: {a_second:.0} turns a second");
        line(&what, mine, plain, Bar::AtMost(1.3));
    }
}

/// A table of so many entries, each for one code of its own.
fn table(entries: usize) -> Vec<u8> {
    let mut image = vec![0; LARGEST_IMAGE];
    let size = pack(16, 0, &[0], &one_code_each(entries), &mut image).expect("packed");
    image.truncate(size);
    image
}

/// Eight keys whose matches stand one after another from a place on.
fn keys(first: usize) -> Vec<Key> {
    let mut random = Random::new(17);
    (first..first + 8)
        .map(|code| Key {
            code: code as u16,
            byte: random.below(256) as u8,
        })
        .collect()
}

/// The times of a search: ours and plain on a list card, ours and plain on a column card.
fn search_times(image: &[u8], keys: &[Key]) -> [f64; 4] {
    type Search = fn(&[u8], &[Key], u32) -> u64;
    let calls: [Search; 4] = [
        ours::list_search,
        rounds::list_search,
        ours::column_search,
        rounds::column_search,
    ];
    let answers = calls.map(|search| search(image, keys, 5));
    assert!(answers.iter().all(|answer| *answer == answers[0]));
    let [list, column] = [calls[1], calls[3]].map(|search| enough(image, keys, search));
    let counts = [list, list, column, column];
    let run = |n: usize, count| black_box(calls[n](black_box(image), black_box(keys), count));
    let none = best_in_turn(
        9,
        [
            &mut || _ = run(0, 0),
            &mut || _ = run(1, 0),
            &mut || _ = run(2, 0),
            &mut || _ = run(3, 0),
        ],
    );
    let all = best_in_turn(
        9,
        [
            &mut || _ = run(0, counts[0]),
            &mut || _ = run(1, counts[1]),
            &mut || _ = run(2, counts[2]),
            &mut || _ = run(3, counts[3]),
        ],
    );
    let searches = |n: usize| f64::from(counts[n]) * keys.len() as f64;
    std::array::from_fn(|n| (nanoseconds(all[n]) - nanoseconds(none[n])) / searches(n))
}

/// So many rounds that they take some milliseconds.
fn enough(image: &[u8], keys: &[Key], search: fn(&[u8], &[Key], u32) -> u64) -> u32 {
    let mut count = 16;
    loop {
        let [time] = best_in_turn(2, [&mut || _ = black_box(search(image, keys, count))]);
        if time > Duration::from_millis(4) {
            return count;
        }
        count *= 2;
    }
}

/// Where the match of a search stands.
fn places(entries: usize) -> [(&'static str, usize); 4] {
    [
        ("early", 0),
        ("in the middle", entries / 2 - 4),
        ("late", entries - 8),
        ("nowhere", entries),
    ]
}

/// Searches in cards of three sizes, with the match at four places.
pub fn searches() {
    let mut times = Vec::new();
    for entries in [64, 512, MOST_ENTRIES] {
        let image = table(entries);
        for (place, first) in places(entries) {
            let what = format!("{entries} entries, match {place}");
            times.push((what, search_times(&image, &keys(first))));
        }
    }
    heading("Search on the column card, beside the same bitmaps", "ours", "plain");
    for (what, [_, _, mine, plain]) in &times {
        line(what, *mine, *plain, Bar::AtMost(1.2));
    }
    heading("Search on the list card", "ours", "plain");
    for (what, [mine, plain, _, _]) in &times {
        line(what, *mine, *plain, Bar::None);
    }
    heading("Search on both cards, ours", "list", "column");
    for (what, [list, _, column, _]) in &times {
        let late = what.starts_with("4096") && what.ends_with("late");
        let bar = if late { Bar::AtLeast(5.0) } else { Bar::None };
        line(what, *list, *column, bar);
    }
}

/// The time of a search whose match stands last, by the number of entries.
pub fn growth() {
    heading("Search by number of entries, match late, ours", "list", "column");
    let mut entries = 64;
    while entries <= MOST_ENTRIES {
        let [list, _, column, _] = search_times(&table(entries), &keys(entries - 8));
        line(&format!("{entries} entries"), list, column, Bar::None);
        entries *= 2;
    }
}
