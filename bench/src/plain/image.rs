//! The table image: packing and unpacking.

use super::words::{Entry, MOST_ENTRIES, MOST_STATES, Refusal};

/// The bytes before the codes.
const HEADER: usize = 12;

/// A checked image, over the bytes that hold it.
#[derive(Clone, Copy, Debug)]
pub struct Image<'a> {
    bytes: &'a [u8],
    pub states: u16,
    pub start: u16,
    pub entries: u16,
}

pub fn word(bytes: &[u8], at: usize) -> u16 {
    u16::from_be_bytes([bytes[at], bytes[at + 1]])
}

fn read_entry(b: &[u8]) -> Entry {
    Entry {
        code_value: word(b, 0),
        code_mask: word(b, 2),
        byte_value: b[4],
        byte_mask: b[5],
        next: word(b, 6),
        class: b[8],
    }
}

/// The place in an entry of its first field that breaks a rule.
pub fn entry_fault(e: &Entry, limit: u32) -> Option<usize> {
    if u32::from(e.code_value) >= limit || e.code_value & e.code_mask != e.code_value {
        Some(0)
    } else if u32::from(e.code_mask) >= limit {
        Some(2)
    } else if e.byte_value & e.byte_mask != e.byte_value {
        Some(4)
    } else if u32::from(e.next) >= limit {
        Some(6)
    } else {
        None
    }
}

/// The offset of the first field of the header that breaks a rule.
pub fn header_fault(width: u8, states: usize, start: u16, entries: usize) -> Option<usize> {
    if width > 16 {
        Some(5)
    } else if !(1..=MOST_STATES).contains(&states) {
        Some(6)
    } else if usize::from(start) >= states {
        Some(8)
    } else if entries > MOST_ENTRIES {
        Some(10)
    } else {
        None
    }
}

/// The image in some bytes, or the offset of the first field that breaks a rule.
pub fn unpack(bytes: &[u8]) -> Result<Image<'_>, Refusal> {
    let fail = |at| Err(Refusal::Malformed(at));
    if bytes.len() < HEADER {
        return fail(bytes.len());
    }
    if bytes[0] != 1 {
        return fail(0);
    }
    let rest = u32::from_be_bytes([bytes[1], bytes[2], bytes[3], bytes[4]]);
    if rest as usize != bytes.len() - 5 {
        return fail(1);
    }
    let image = Image {
        bytes,
        states: word(bytes, 6),
        start: word(bytes, 8),
        entries: word(bytes, 10),
    };
    let (states, entries) = (image.states as usize, image.entries as usize);
    if let Some(at) = header_fault(bytes[5], states, image.start, entries) {
        return fail(at);
    }
    if bytes.len() != HEADER + 2 * states + 9 * entries {
        return fail(HEADER);
    }
    let limit = 1 << bytes[5];
    if let Some(s) = image.codes().position(|code| u32::from(code) >= limit) {
        return fail(HEADER + 2 * s);
    }
    for (i, entry) in image.entries().enumerate() {
        if let Some(place) = entry_fault(&entry, limit) {
            return fail(HEADER + 2 * states + 9 * i + place);
        }
    }
    Ok(image)
}

impl<'a> Image<'a> {
    /// The bits of a code.
    pub fn width(&self) -> u8 {
        self.bytes[5]
    }

    /// The codes of the states, in state order.
    pub fn codes(&self) -> impl Iterator<Item = u16> + use<'a> {
        let codes = &self.bytes[HEADER..HEADER + 2 * self.states as usize];
        codes.chunks_exact(2).map(|b| word(b, 0))
    }

    /// The entries, in their sequence.
    pub fn entries(&self) -> impl Iterator<Item = Entry> + use<'a> {
        let entries = &self.bytes[HEADER + 2 * self.states as usize..];
        entries.chunks_exact(9).map(read_entry)
    }

    /// The code of a state.
    pub fn code(&self, state: u16) -> u16 {
        word(self.bytes, HEADER + 2 * state as usize)
    }
}

/// The offset of the first field that would break a rule in the image of these parts.
fn parts_fault(width: u8, start: u16, codes: &[u16], entries: &[Entry]) -> Option<usize> {
    if let Some(at) = header_fault(width, codes.len(), start, entries.len()) {
        return Some(at);
    }
    let limit = 1 << width;
    if let Some(s) = codes.iter().position(|&code| u32::from(code) >= limit) {
        return Some(HEADER + 2 * s);
    }
    let first = HEADER + 2 * codes.len();
    let mut faults = entries
        .iter()
        .enumerate()
        .filter_map(|(i, e)| entry_fault(e, limit).map(|place| first + 9 * i + place));
    faults.next()
}

/// Writes the image of these parts over the first bytes of the output, and answers its size.
pub fn pack(
    width: u8,
    start: u16,
    codes: &[u16],
    entries: &[Entry],
    out: &mut [u8],
) -> Result<usize, Refusal> {
    if let Some(at) = parts_fault(width, start, codes, entries) {
        return Err(Refusal::Malformed(at));
    }
    let first = HEADER + 2 * codes.len();
    let size = first + 9 * entries.len();
    let out = out.get_mut(..size).ok_or(Refusal::OutputTooShort)?;
    out[0] = 1;
    out[1..5].copy_from_slice(&(size as u32 - 5).to_be_bytes());
    out[5] = width;
    out[6..8].copy_from_slice(&(codes.len() as u16).to_be_bytes());
    out[8..10].copy_from_slice(&start.to_be_bytes());
    out[10..12].copy_from_slice(&(entries.len() as u16).to_be_bytes());
    for (place, code) in out[HEADER..first].chunks_exact_mut(2).zip(codes) {
        place.copy_from_slice(&code.to_be_bytes());
    }
    for (place, e) in out[first..].chunks_exact_mut(9).zip(entries) {
        place[0..2].copy_from_slice(&e.code_value.to_be_bytes());
        place[2..4].copy_from_slice(&e.code_mask.to_be_bytes());
        place[4] = e.byte_value;
        place[5] = e.byte_mask;
        place[6..8].copy_from_slice(&e.next.to_be_bytes());
        place[8] = e.class;
    }
    Ok(size)
}
