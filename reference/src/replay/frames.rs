//! Files whose trailer or whose chain isn't that of their sections.

use crate::file::{Case, Trailer};

/// A case with another trailer.
pub fn with_trailer(case: &Case, change: impl Fn(&mut Trailer)) -> Vec<u8> {
    let mut trailer = case.trailer();
    change(&mut trailer);
    [case.section_bytes(), trailer.bytes()].concat()
}

/// A case with zeros put before a section, or before the trailer where no section has that number; the offsets and the
/// length told as they are.
pub fn with_gap(case: &Case, before: usize, bytes: u32) -> Vec<u8> {
    let mut trailer = case.trailer();
    let mut sections = case.section_bytes();
    let place = trailer.offsets.get(before).map_or(sections.len(), |offset| *offset as usize);
    sections.splice(place..place, vec![0; bytes as usize]);
    trailer.offsets.iter_mut().skip(before).for_each(|offset| *offset += bytes);
    trailer.length += bytes;
    [sections, trailer.bytes()].concat()
}

/// A case with so many records of its settings, one after another; the offsets and the length told as they are.
pub fn with_settings(case: &Case, count: u32) -> Vec<u8> {
    let record = case.settings.bytes();
    let mut trailer = case.trailer();
    let size = record.len() as u32;
    let moved = |place: &mut u32| *place = *place - size + count * size;
    trailer.counts[0] = count;
    trailer.offsets[1..].iter_mut().for_each(moved);
    moved(&mut trailer.length);
    let others = case.section_bytes().split_off(record.len());
    [record.repeat(count as usize), others, trailer.bytes()].concat()
}
