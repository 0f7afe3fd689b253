//! 01, 1: "length, trailer, version, counts or chain wrong", and runs of another length; 12, at the other end. 02, CR 3: versions 1 and
//! 2, and the count of circuits that 2 holds.

use super::{any, Faults};
use crate::input::Input;
use reference::file::{
    named_edition, padded, Case, CircuitRow, Edition, NodeRow, StationRow, Trailer, Version, SECTIONS_EDITION_2,
};
use reference::random::Chance;

pub fn add(list: &mut Faults) {
    add_lengths(list);
    add_versions(list);
    add_trailer(list);
    add_chains(list);
    add_counts(list);
    list.each_solution(add_solution);
    list.each_solution(add_run);
    list.input(12, "a buffer one byte short", |input, _| {
        input.sheet_len = input.sheet_len.checked_sub(1)?;
        Some(0)
    });
    list.input(12, "a buffer of any shorter length", |input, chance| {
        input.sheet_len = any(chance, input.sheet_len)?;
        Some(0)
    });
    list.input(12, "no buffer", |input, _| {
        input.sheet_len = 0;
        Some(0)
    });
}

fn add_lengths(list: &mut Faults) {
    list.input(1, "a file cut short", |input, chance| {
        input.file.truncate(any(chance, input.file.len())?);
        Some(0)
    });
    list.input(1, "a file one byte short", |input, _| input.file.pop().map(|_| 0));
    list.input(1, "a file without its first bytes", |input, chance| {
        let count = 1 + any(chance, input.file.len().min(64))?;
        input.file.drain(..count);
        Some(0)
    });
    list.input(1, "bytes behind the trailer", |input, chance| {
        let count = input.file.len() + chance.within(1, 70) as usize;
        input.file.resize(count, chance.of(&[0, 255]));
        Some(0)
    });
    list.input(1, "shorter than a trailer", |input, chance| {
        input.file.truncate(chance.within(0, 63) as usize);
        Some(0)
    });
}

/// Changes the trailer of a file that has one.
pub fn trailer(input: &mut Input, change: impl FnOnce(&mut Trailer)) -> Option<u64> {
    let mut trailer = Trailer::read(&input.file)?;
    let old = trailer.clone();
    change(&mut trailer);
    let start = input.file.len() - old.bytes().len();
    input.file.splice(start.., trailer.bytes());
    (trailer != old).then_some(0)
}

/// Changes an offset or a count of the trailer, where it has that one.
fn entry(
    input: &mut Input,
    of: impl FnOnce(&mut Trailer) -> Option<&mut u32>,
    change: impl FnOnce(u32) -> u32,
) -> Option<u64> {
    trailer(input, |trailer| {
        if let Some(number) = of(trailer) {
            *number = change(*number);
        }
    })
}

/// Another number, near or far.
fn other(chance: &mut Chance, old: u32) -> u32 {
    chance.of(&[old.wrapping_add(1), old.wrapping_sub(1), old ^ 1 << 31, 0, u32::MAX])
}

fn add_versions(list: &mut Faults) {
    list.input(1, "version neither 1 nor 2", |input, chance| {
        let versions = [0, 3, 256, 256 + 1, 256 + 2, 2 * 256, 1 << 24, 2 << 24, u32::MAX];
        trailer(input, |trailer| trailer.version = chance.of(&versions))
    });
    // Without circuits a file of edition 1 is one of the other version.
    for (cause, told) in [("the other version", false), ("the other version with its offsets", true)] {
        list.input(1, cause, move |input, _| {
            let case = case_of(input).filter(|case| !case.circuits.is_empty() || case.edition == Edition::Two)?;
            let other = if case.version == Version::One { Version::Two } else { Version::One };
            let offsets = Case { version: other, circuits: without_factors(&case), ..case }.trailer().offsets;
            trailer(input, |trailer| {
                trailer.version = other.number();
                if told {
                    trailer.offsets = offsets;
                }
            })
        });
    }
}

/// Circuits that either version has a place for.
pub fn without_factors(case: &Case) -> Vec<CircuitRow> {
    case.circuits.iter().map(|row| CircuitRow { factor: 0, ..row.clone() }).collect()
}

fn add_trailer(list: &mut Faults) {
    list.input(1, "the trailer's length", |input, chance| {
        trailer(input, |trailer| trailer.length = other(chance, trailer.length))
    });
    for (section, name) in SECTIONS_EDITION_2.into_iter().enumerate() {
        list.only = (section >= Edition::One.sections().len()).then_some(Edition::Two);
        list.input(1, format!("the offset of {name}"), move |input, chance| {
            entry(input, |trailer| trailer.offsets.get_mut(section), |old| other(chance, old))
        });
        list.input(1, format!("the count of {name}"), move |input, chance| {
            entry(input, |trailer| trailer.counts.get_mut(section), |old| other(chance, old))
        });
        // As many rows more as give the same place in 32 bits: 2^32 bytes, or 2^30 rows of 44 or 48 bytes.
        let size = Edition::Two.sizes(Version::One)[section];
        let wrapped = (1u64 << 32) / (size as u64 & size.wrapping_neg() as u64);
        list.input(1, format!("a count of {name} that wraps 32 bits"), move |input, _| {
            entry(input, |trailer| trailer.counts.get_mut(section), |old| old.wrapping_add(wrapped as u32))
        });
    }
    list.only = None;
}

/// The sections of a case by their bytes, in an order, each behind so many bytes, with a trailer that tells where they stand.
fn laid_out(case: &Case, order: &[usize], gaps: &[usize]) -> Vec<u8> {
    let (bytes, old, sizes) = (case.section_bytes(), case.trailer(), case.edition.sizes(case.version));
    let mut file = Vec::new();
    let mut trailer = old.clone();
    for (section, gap) in order.iter().zip(gaps) {
        file.resize(file.len() + gap, 0);
        trailer.offsets[*section] = file.len() as u32;
        let start = old.offsets[*section] as usize;
        file.extend(&bytes[start..start + old.counts[*section] as usize * sizes[*section]]);
    }
    file.resize(file.len() + gaps[order.len()], 0);
    trailer.length = (file.len() + case.edition.trailer_size()) as u32;
    file.extend(trailer.bytes());
    file
}

/// The case of a whole file.
pub fn case_of(input: &Input) -> Option<Case> {
    let trailer = Trailer::read(&input.file)?;
    let counts: Vec<usize> = trailer.counts.iter().map(|count| *count as usize).collect();
    Case::read(&input.file, Version::of(trailer.version)?, named_edition(&input.file)?, &counts)
}

fn add_chains(list: &mut Faults) {
    list.input(1, "a gap between sections, trailer mended", |input, chance| {
        let case = case_of(input)?;
        let order: Vec<usize> = (0..case.counts().len()).collect();
        let mut gaps = vec![0; order.len() + 1];
        gaps[any(chance, order.len() + 1)?] = chance.of(&[1, 4, 8, 24]);
        input.file = laid_out(&case, &order, &gaps);
        Some(0)
    });
    list.input(1, "sections exchanged, trailer mended", |input, chance| {
        let case = case_of(input)?;
        let mut order: Vec<usize> = (0..case.counts().len()).collect();
        let place = chance.within(1, order.len() as u64 - 2) as usize;
        order.swap(place, place + 1);
        let changed = laid_out(&case, &order, &vec![0; order.len() + 1]);
        // an empty table stands in both places
        (!case.circuits.is_empty() || place > 2).then(|| input.file = changed)?;
        Some(0)
    });
}

/// Rows to one more than the greatest count, all of them in order.
fn add_counts(list: &mut Faults) {
    list.case(1, 0, "no nodes", |case, _| {
        case.nodes.clear();
        fit_runs(case);
        Some(0)
    });
    list.case(1, 0, "257 nodes", |case, _| {
        let more = (case.nodes.len()..257).map(|number| NodeRow {
            name: padded(format!("MORE{number}").as_bytes()),
            generation_zone: 1,
            demand_zone: 1,
            demand: 0,
        });
        case.nodes = std::mem::take(&mut case.nodes).into_iter().chain(more).collect();
        fit_runs(case);
        Some(0)
    });
    list.case(1, 0, "513 circuits", |case, _| grow_circuits(case, 513));
    list.only(Edition::One, |list| {
        list.case(1, 0, "481 to 512 circuits in version 2", |case, chance| {
            let count = chance.of(&[481, 481, 482, 511, 512]);
            (case.version == Version::Two).then(|| grow_circuits(case, count))?
        });
    });
    list.case(1, 0, "513 stations", |case, _| {
        let node = case.nodes.first()?.name;
        let more = (case.stations.len()..513).map(|number| StationRow {
            identifier: padded(format!("MORE{number}").as_bytes()),
            node,
            plant: 7,
            tec: 0,
        });
        case.stations = std::mem::take(&mut case.stations).into_iter().chain(more).collect();
        Some(0)
    });
}

/// A solution of one row more in the file.
fn add_solution(list: &mut Faults, place: usize, name: &str) {
    list.input(1, format!("one row more of {name} in the file, trailer mended"), move |input, _| {
        let mut case = case_of(input)?;
        case.runs[place].push(0);
        input.file = case.bytes();
        Some(0)
    });
}

/// Circuits without length to so many, all of them in order.
pub fn grow_circuits(case: &mut Case, count: usize) -> Option<u64> {
    let (first, second) = (case.nodes.first()?.name, case.nodes.get(1)?.name);
    let row = CircuitRow { first, second, voltage: 400, x: 1, overhead: 0, cable: 0, mark: 0, factor: 0 };
    case.circuits.resize(count, row);
    fit_runs(case);
    Some(0)
}

/// Solutions of as many rows as the tables have.
fn fit_runs(case: &mut Case) {
    let rows = case.rows();
    case.own_runs_mut().iter_mut().for_each(|run| run.resize(rows, 0));
}

/// A run of another length.
fn add_run(list: &mut Faults, place: usize, name: &str) {
    list.input(1, format!("{name} lent one number short"), move |input, _| input.runs[place].pop().map(|_| 0));
    list.input(1, format!("{name} lent one number long"), move |input, _| {
        input.runs[place].push(0);
        Some(0)
    });
    list.input(1, format!("{name} lent with any other length"), move |input, chance| {
        let old = input.runs[place].len();
        input.runs[place].resize(chance.within(0, 1_000) as usize, 0);
        (input.runs[place].len() != old).then_some(0)
    });
}
