//! The proved calls, as the static library exports them.

use crate::plain::words::Automaton;

/// What is searched for.
#[repr(C)]
#[derive(Clone, Copy, Debug)]
pub struct Key {
    pub code: u16,
    pub byte: u8,
}

// A slice crosses as a pointer and a length. These declarations are held by hand to those of crates/measured/src. No export
// has a `requires`, so that each is safe to call with any slices; the static library touches nothing but what it is lent.
unsafe extern "C" {
    fn measured_build(
        states: u16,
        start: u16,
        successors: *const u16,
        successors_len: usize,
        classes: *const u8,
        classes_len: usize,
        work: *mut u32,
        work_len: usize,
        out: *mut u8,
        out_len: usize,
    ) -> usize;

    fn measured_check(
        states: u16,
        start: u16,
        successors: *const u16,
        successors_len: usize,
        classes: *const u8,
        classes_len: usize,
        image: *const u8,
        image_len: usize,
    ) -> u8;

    fn measured_feed(
        states: u16,
        start: u16,
        successors: *const u16,
        successors_len: usize,
        classes: *const u8,
        classes_len: usize,
        image: *const u8,
        image_len: usize,
        piece: *const u8,
        piece_len: usize,
        count: u32,
    ) -> u64;

    fn measured_turns(
        states: u16,
        start: u16,
        successors: *const u16,
        successors_len: usize,
        classes: *const u8,
        classes_len: usize,
        image: *const u8,
        image_len: usize,
        buffer: *const u8,
        buffer_len: usize,
        quota: usize,
        count: u32,
    ) -> u64;

    fn measured_list_search(
        image: *const u8,
        image_len: usize,
        keys: *const Key,
        keys_len: usize,
        count: u32,
    ) -> u64;

    fn measured_column_search(
        image: *const u8,
        image_len: usize,
        keys: *const Key,
        keys_len: usize,
        count: u32,
    ) -> u64;
}

/// Builds the table image of an automaton: the image's size, or the number of a refusal.
pub fn build(a: &Automaton<'_>, work: &mut [u32], out: &mut [u8]) -> usize {
    let (successors, classes) = (a.successors, a.classes);
    // SAFETY: each pointer goes with the length of its own slice, which is borrowed for the call.
    unsafe {
        measured_build(
            a.states,
            a.start,
            successors.as_ptr(),
            successors.len(),
            classes.as_ptr(),
            classes.len(),
            work.as_mut_ptr(),
            work.len(),
            out.as_mut_ptr(),
            out.len(),
        )
    }
}

/// Checks an image: 0, or the number of a refusal.
pub fn check(a: &Automaton<'_>, image: &[u8]) -> u8 {
    let (successors, classes) = (a.successors, a.classes);
    // SAFETY: as in `build`.
    unsafe {
        measured_check(
            a.states,
            a.start,
            successors.as_ptr(),
            successors.len(),
            classes.as_ptr(),
            classes.len(),
            image.as_ptr(),
            image.len(),
        )
    }
}

/// Loads a scanner over a list card and feeds it a piece so many times: a sum over the answers.
pub fn feed(a: &Automaton<'_>, image: &[u8], piece: &[u8], count: u32) -> u64 {
    let (successors, classes) = (a.successors, a.classes);
    // SAFETY: as in `build`.
    unsafe {
        measured_feed(
            a.states,
            a.start,
            successors.as_ptr(),
            successors.len(),
            classes.as_ptr(),
            classes.len(),
            image.as_ptr(),
            image.len(),
            piece.as_ptr(),
            piece.len(),
            count,
        )
    }
}

/// Loads a gateway over a list card, lets the whole buffer wait for each coach, and makes so many turns: a sum over the
/// answers.
pub fn turns(a: &Automaton<'_>, image: &[u8], buffer: &[u8], quota: usize, count: u32) -> u64 {
    let (successors, classes) = (a.successors, a.classes);
    // SAFETY: as in `build`.
    unsafe {
        measured_turns(
            a.states,
            a.start,
            successors.as_ptr(),
            successors.len(),
            classes.as_ptr(),
            classes.len(),
            image.as_ptr(),
            image.len(),
            buffer.as_ptr(),
            buffer.len(),
            quota,
            count,
        )
    }
}

/// Fills a list card and searches for each key, so many times: a sum over what is found.
pub fn list_search(image: &[u8], keys: &[Key], count: u32) -> u64 {
    let (bytes, len) = (image.as_ptr(), image.len());
    // SAFETY: as in `build`.
    unsafe { measured_list_search(bytes, len, keys.as_ptr(), keys.len(), count) }
}

/// Fills a column card and searches for each key, so many times: a sum over what is found.
pub fn column_search(image: &[u8], keys: &[Key], count: u32) -> u64 {
    let (bytes, len) = (image.as_ptr(), image.len());
    // SAFETY: as in `build`.
    unsafe { measured_column_search(bytes, len, keys.as_ptr(), keys.len(), count) }
}
