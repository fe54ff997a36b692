//! The proved calls that take two bytes in a search, as the static library exports them.

use crate::plain::words::Automaton;

// A slice crosses as a pointer and a length, as in `ours.rs`.
unsafe extern "C" {
    fn measured_pair_build(
        states: u16,
        start: u16,
        successors: *const u16,
        successors_len: usize,
        classes: *const u8,
        classes_len: usize,
        work: *mut u32,
        work_len: usize,
        out: *mut u8,
        out_len: usize,
    ) -> usize;

    fn measured_pair_check(
        states: u16,
        start: u16,
        successors: *const u16,
        successors_len: usize,
        classes: *const u8,
        classes_len: usize,
        image: *const u8,
        image_len: usize,
    ) -> u8;

    fn measured_pair_feed(
        states: u16,
        start: u16,
        successors: *const u16,
        successors_len: usize,
        classes: *const u8,
        classes_len: usize,
        two_image: *const u8,
        two_image_len: usize,
        one_image: *const u8,
        one_image_len: usize,
        piece: *const u8,
        piece_len: usize,
        count: u32,
    ) -> u64;
}

/// Builds the two-byte table image of an automaton: the image's size, or the number of a refusal.
pub fn build(a: &Automaton<'_>, work: &mut [u32], out: &mut [u8]) -> usize {
    let (successors, classes) = (a.successors, a.classes);
    // SAFETY: each pointer goes with the length of its own slice, which is borrowed for the call.
    unsafe {
        measured_pair_build(
            a.states,
            a.start,
            successors.as_ptr(),
            successors.len(),
            classes.as_ptr(),
            classes.len(),
            work.as_mut_ptr(),
            work.len(),
            out.as_mut_ptr(),
            out.len(),
        )
    }
}

/// Checks a two-byte image: 0, or the number of a refusal.
pub fn check(a: &Automaton<'_>, image: &[u8]) -> u8 {
    let (successors, classes) = (a.successors, a.classes);
    // SAFETY: as in `build`.
    unsafe {
        measured_pair_check(
            a.states,
            a.start,
            successors.as_ptr(),
            successors.len(),
            classes.as_ptr(),
            classes.len(),
            image.as_ptr(),
            image.len(),
        )
    }
}

/// Loads a scanner over a two-byte and a one-byte list card and feeds it a piece so many times: a sum over the answers.
pub fn feed(
    a: &Automaton<'_>,
    two_image: &[u8],
    one_image: &[u8],
    piece: &[u8],
    count: u32,
) -> u64 {
    let (successors, classes) = (a.successors, a.classes);
    // SAFETY: as in `build`.
    unsafe {
        measured_pair_feed(
            a.states,
            a.start,
            successors.as_ptr(),
            successors.len(),
            classes.as_ptr(),
            classes.len(),
            two_image.as_ptr(),
            two_image.len(),
            one_image.as_ptr(),
            one_image.len(),
            piece.as_ptr(),
            piece.len(),
            count,
        )
    }
}
