//! The two-byte table image: packing and unpacking.

use super::words::{PairEntry, Stride};
use crate::plain::image::{entry_fault, header_fault, word};
use crate::plain::words::{Entry, Refusal};

/// The bytes before the codes.
const HEADER: usize = 12;

/// The bytes of an entry.
const ENTRY: usize = 12;

/// A checked image, over the bytes that hold it.
#[derive(Clone, Copy, Debug)]
pub struct PairImage<'a> {
    bytes: &'a [u8],
    pub states: u16,
    pub start: u16,
    pub entries: u16,
}

/// The entry in some bytes, whose last is 1 or 2.
fn read_entry(b: &[u8]) -> PairEntry {
    PairEntry {
        entry: Entry {
            code_value: word(b, 0),
            code_mask: word(b, 2),
            byte_value: b[4],
            byte_mask: b[5],
            next: word(b, 8),
            class: b[10],
        },
        second_value: b[6],
        second_mask: b[7],
        stride: if b[11] == 1 { Stride::One } else { Stride::Two },
    }
}

/// The place in an entry of its first field that breaks a rule.
fn pair_fault(b: &[u8], limit: u32) -> Option<usize> {
    let pair = read_entry(b);
    let second = (b[6] & b[7] != b[6]).then_some(6);
    match entry_fault(&pair.entry, limit) {
        // the successor code stands behind the second byte here
        Some(6) => second.or(Some(8)),
        Some(place) => Some(place),
        None => second.or((!(1..=2).contains(&b[11])).then_some(11)),
    }
}

/// The image in some bytes, or the offset of the first field that breaks a rule.
pub fn unpack(bytes: &[u8]) -> Result<PairImage<'_>, Refusal> {
    let fail = |at| Err(Refusal::Malformed(at));
    if bytes.len() < HEADER {
        return fail(bytes.len());
    }
    if bytes[0] != 3 {
        return fail(0);
    }
    let rest = u32::from_be_bytes([bytes[1], bytes[2], bytes[3], bytes[4]]);
    if rest as usize != bytes.len() - 5 {
        return fail(1);
    }
    let image = PairImage {
        bytes,
        states: word(bytes, 6),
        start: word(bytes, 8),
        entries: word(bytes, 10),
    };
    let (states, entries) = (image.states as usize, image.entries as usize);
    if let Some(at) = header_fault(bytes[5], states, image.start, entries) {
        return fail(at);
    }
    if bytes.len() != HEADER + 2 * states + ENTRY * entries {
        return fail(HEADER);
    }
    let limit = 1 << bytes[5];
    if let Some(s) = image.codes().position(|code| u32::from(code) >= limit) {
        return fail(HEADER + 2 * s);
    }
    let first = HEADER + 2 * states;
    for (i, entry) in bytes[first..].chunks_exact(ENTRY).enumerate() {
        if let Some(place) = pair_fault(entry, limit) {
            return fail(first + ENTRY * i + place);
        }
    }
    Ok(image)
}

impl<'a> PairImage<'a> {
    /// The bits of a code.
    pub fn width(&self) -> u8 {
        self.bytes[5]
    }

    /// The codes of the states, in state order.
    pub fn codes(&self) -> impl Iterator<Item = u16> + use<'a> {
        let codes = &self.bytes[HEADER..HEADER + 2 * self.states as usize];
        codes.chunks_exact(2).map(|b| word(b, 0))
    }

    /// The entries, in their sequence.
    pub fn entries(&self) -> impl Iterator<Item = PairEntry> + use<'a> {
        let entries = &self.bytes[HEADER + 2 * self.states as usize..];
        entries.chunks_exact(ENTRY).map(read_entry)
    }
}

/// Writes the image of sound parts over the first bytes of the output, and answers its size.
pub fn pack(
    width: u8,
    start: u16,
    codes: &[u16],
    entries: &[PairEntry],
    out: &mut [u8],
) -> Result<usize, Refusal> {
    let first = HEADER + 2 * codes.len();
    let size = first + ENTRY * entries.len();
    let out = out.get_mut(..size).ok_or(Refusal::OutputTooShort)?;
    out[0] = 3;
    out[1..5].copy_from_slice(&(size as u32 - 5).to_be_bytes());
    out[5] = width;
    out[6..8].copy_from_slice(&(codes.len() as u16).to_be_bytes());
    out[8..10].copy_from_slice(&start.to_be_bytes());
    out[10..12].copy_from_slice(&(entries.len() as u16).to_be_bytes());
    for (place, code) in out[HEADER..first].chunks_exact_mut(2).zip(codes) {
        place.copy_from_slice(&code.to_be_bytes());
    }
    for (place, e) in out[first..].chunks_exact_mut(ENTRY).zip(entries) {
        place[0..2].copy_from_slice(&e.entry.code_value.to_be_bytes());
        place[2..4].copy_from_slice(&e.entry.code_mask.to_be_bytes());
        place[4..8].copy_from_slice(&[
            e.entry.byte_value,
            e.entry.byte_mask,
            e.second_value,
            e.second_mask,
        ]);
        place[8..10].copy_from_slice(&e.entry.next.to_be_bytes());
        place[10] = e.entry.class;
        place[11] = e.stride.bytes() as u8;
    }
    Ok(size)
}
