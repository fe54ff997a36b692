//! A compiling of 32 patterns, beside plain Rust that takes the same steps.

use crate::plain::patterns::compile;
use crate::plain::words::MOST_STATES;
use crate::report::{Bar, heading, line};
use crate::timing::best_in_turn;
use std::hint::black_box;

/// The bytes of a pattern, each of them a position.
const LEN: usize = 8;

/// The patterns, one after another: words over eight letters, and two with three dots.
const PATTERNS: &[u8; 32 * LEN] = b"\
    q...afbfq...fgdaegefddaggbfeabhfcfdaaahaahbahcfchggaccfhchfeeacd\
    eeahcbgdbgbbbedabffggehhffhfedcfgdfaehbfbcacfceafcaadfhgdbhffdhc\
    abcffabgdcehhfaegfdecdfchfaefeeefdhdeagheegcfgaaafaehafffaagaeag\
    hceeaggehcaegedeffdccffbcggfehdgcdaffefhcehahgbbdhafcbhaaagafhbb";

// Held by hand to the declaration in crates/measured/src/patterns.rt. The export has no `requires`, and touches nothing but what
// it is lent.
unsafe extern "C" {
    fn measured_compile(buffer: *const u8, buffer_len: usize, len: u16) -> u64;
}

/// The proved call: a sum over both buffers, or the number of a refusal.
fn ours(buffer: &[u8]) -> u64 {
    // SAFETY: the pointer goes with the length of its slice, which is borrowed for the call.
    unsafe { measured_compile(buffer.as_ptr(), buffer.len(), LEN as u16) }
}

/// The plain call with the same sum.
fn plain(buffer: &[u8]) -> u64 {
    let places: [(usize, usize); 32] = std::array::from_fn(|i| (i * LEN, LEN));
    let mut successors = [0u16; 256 * MOST_STATES];
    let mut classes = [0u8; MOST_STATES];
    let added = |sum: u64, number: u64| sum.wrapping_mul(31).wrapping_add(number);
    match compile(buffer, &places, &mut successors, &mut classes) {
        Ok(states) => {
            let sum = successors.iter().fold(states as u64, |sum, next| added(sum, (*next).into()));
            classes.iter().fold(sum, |sum, class| added(sum, (*class).into()))
        }
        Err(why) => why.into(),
    }
}

/// Compiling 32 patterns of 256 positions and 512 states.
pub fn compiles() {
    assert_eq!(ours(PATTERNS), plain(PATTERNS));
    assert!(ours(PATTERNS) > 255);
    let [mine, other] = best_in_turn(
        15,
        [
            &mut || _ = black_box(ours(black_box(PATTERNS))),
            &mut || _ = black_box(plain(black_box(PATTERNS))),
        ],
    );
    heading("Compile", "ours", "plain");
    let what = "32 patterns: 256 positions, 512 states";
    line(what, mine.as_nanos() as f64, other.as_nanos() as f64, Bar::AtMost(1.3));
}
