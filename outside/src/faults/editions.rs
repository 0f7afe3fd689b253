//! 02, CR 5, 1: "for any other edition, version or count": the settings' zero, the trailer's size and the sections that go with it, the
//! count of circuits that edition 2 holds, and peak's runs.

use super::files::{case_of, grow_circuits, trailer, without_factors};
use super::Faults;
use crate::input::Input;
use reference::file::{Case, CircuitRow, Edition, Version, TRAILER, TRAILER_EDITION_2, ZERO_AT};

/// Numbers that name no edition: the natural one of edition 1, neighbours of 0 and 2, and both in other bytes.
const NO_EDITION: [u32; 12] = [1, 1, 1, 3, 4, 256, 2 << 8, 2 << 16, 2 << 24, (1 << 16) + 2, (1 << 31) + 2, u32::MAX];

pub fn add(list: &mut Faults) {
    list.case(1, 0, "the settings' zero neither 0 nor 2", |case, chance| {
        case.settings.zero = chance.of(&NO_EDITION);
        Some(0)
    });
    list.only(Edition::One, add_to_edition_1);
    list.only(Edition::Two, add_to_edition_2);
    list.only(Edition::Two, add_trailers);
    list.only(Edition::Two, add_peak_runs);
}

/// Edition 1 with something of edition 2.
fn add_to_edition_1(list: &mut Faults) {
    list.case(1, 0, "seven sections that name edition 2", |case, _| {
        case.settings.zero = Edition::Two.zero();
        Some(0)
    });
    list.input(1, "edition 1 with a trailer of 80 bytes", |input, _| {
        with_peak_entries(input)?;
        Some(0)
    });
    list.input(1, "seven sections that name edition 2, with a trailer of 80 bytes", |input, _| {
        with_peak_entries(input)?;
        name_edition(input, Edition::Two);
        Some(0)
    });
    list.input(1, "nine sections that name edition 1, with a trailer of 64 bytes", |input, _| {
        let case = case_of(input)?;
        let more = vec![0; 2 * 8 * case.rows()];
        let mut trailer = case.trailer();
        trailer.length += more.len() as u32;
        input.file = [case.section_bytes(), more, trailer.bytes()].concat();
        Some(0)
    });
    for (cause, places) in [
        ("peak base lent in edition 1", &[3][..]),
        ("peak wider lent in edition 1", &[4]),
        ("both of peak's runs lent in edition 1", &[3, 4]),
    ] {
        list.input(1, cause, move |input, chance| {
            let rows = input.runs[0].len();
            let count = chance.of(&[1, 1, rows, chance.0 as usize % 1_000 + 1]).max(1);
            places.iter().for_each(|place| input.runs[*place] = vec![0; count]);
            Some(0)
        });
    }
}

/// Gives a file of edition 1 a trailer with entries for peak's solutions, of no rows, at the sections' end.
fn with_peak_entries(input: &mut Input) -> Option<()> {
    let case = case_of(input)?;
    let sections = case.section_bytes();
    let mut trailer = case.trailer();
    trailer.offsets.extend([sections.len() as u32; 2]);
    trailer.counts.extend([0; 2]);
    trailer.length = (sections.len() + TRAILER_EDITION_2) as u32;
    input.file = [sections, trailer.bytes()].concat();
    Some(())
}

/// Writes an edition's zero into the settings.
fn name_edition(input: &mut Input, edition: Edition) {
    input.file[ZERO_AT..ZERO_AT + 4].copy_from_slice(&edition.zero().to_le_bytes());
}

/// Edition 2 where it has no place.
fn add_to_edition_2(list: &mut Faults) {
    list.case(1, 0, "nine sections that name edition 1", |case, _| {
        case.settings.zero = Edition::One.zero();
        Some(0)
    });
    list.case(1, 0, "edition 2 in version 1", |case, _| {
        let at_400 = |row: CircuitRow| CircuitRow { voltage: 400, ..row };
        case.circuits = without_factors(case).into_iter().map(at_400).collect();
        case.version = Version::One;
        Some(0)
    });
    list.input(1, "edition 2 that says version 1", |input, _| {
        trailer(input, |trailer| trailer.version = Version::One.number())
    });
    list.case(1, 0, "321 circuits or more in edition 2", |case, chance| {
        let count = chance.of(&[321, 321, 321, 322, 384, 480, 481, 512]);
        grow_circuits(case, count)
    });
    list.case(1, 0, "peak's solutions of no rows", |case, _| {
        case.runs[3..].iter_mut().for_each(Vec::clear);
        Some(0)
    });
}

/// Trailers of another size than 80 bytes, or over other sections than nine.
fn add_trailers(list: &mut Faults) {
    list.input(1, "nine sections with a trailer of 64 bytes", |input, _| {
        let case = case_of(input)?;
        let mut trailer = case.trailer();
        trailer.offsets.truncate(Edition::One.sections().len());
        trailer.counts.truncate(Edition::One.sections().len());
        trailer.length -= (TRAILER_EDITION_2 - TRAILER) as u32;
        input.file = [case.section_bytes(), trailer.bytes()].concat();
        Some(0)
    });
    list.input(1, "seven sections with a trailer of 64 bytes that name edition 2", |input, _| {
        let case = Case { edition: Edition::One, ..case_of(input)? };
        input.file = case.bytes();
        Some(0)
    });
    list.input(1, "a trailer of 80 bytes without its first entries", |input, _| {
        let case = case_of(input)?;
        let bytes = case.trailer().bytes();
        input.file = [case.section_bytes(), bytes[16..].to_vec()].concat();
        let length = input.file.len() as u32;
        let end = input.file.len() - 4;
        input.file[end..].copy_from_slice(&length.to_le_bytes());
        Some(0)
    });
    list.input(1, "a trailer of 80 bytes that begins inside the settings", |input, chance| {
        let length = chance.within(128, 143) as usize;
        input.file.resize(length - 8, 0);
        input.file.extend([Version::Two.number(), length as u32].iter().flat_map(|number| number.to_le_bytes()));
        Some(0)
    });
}

/// Peak's runs that are not lent: what the entries with three runs do.
fn add_peak_runs(list: &mut Faults) {
    for (cause, places) in [
        ("no peak base lent in edition 2", &[3][..]),
        ("no peak wider lent in edition 2", &[4]),
        ("none of peak's runs lent in edition 2", &[3, 4]),
    ] {
        list.input(1, cause, move |input, _| {
            places.iter().for_each(|place| input.runs[*place].clear());
            Some(0)
        });
    }
}
