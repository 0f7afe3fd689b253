//! 01, 8 to 11: what is proposed for each system, and the directions. 02, CR 5: peak's systems too, and 15.

use super::{any, Faults};
use crate::bands::{at_edge, has_length, Doubt, Flows, BASE, PEAK_BASE, REFUSED};
use reference::file::{Case, Edition, RUNS};
use reference::random::Chance;
use reference::solutions::{base_systems, length_systems, lengths, misses, System};
use reference::tables::{sound_tables, Tables};

/// 01, Quantities: the greatest magnitudes, by system.
const POTENTIAL: [i64; RUNS] = [BASE_POTENTIAL, OTHER_POTENTIAL, OTHER_POTENTIAL, BASE_POTENTIAL, OTHER_POTENTIAL];
const BASE_POTENTIAL: i64 = 2_000_000_000_000_000_000;
const OTHER_POTENTIAL: i64 = 10_000_000_000_000_000;
const FLOW: i64 = 100_000_000_000_000;
const MISSES: i128 = 100_000_000;

/// How a fault of `REFUSED` is named: it may undo another of 11 or 15, since it moves a flow.
pub const MOVED: &str = "moved to";

pub fn add(list: &mut Faults) {
    list.each_solution(add_numbers);
    list.each_solution(add_balance);
    list.each_solution(add_misses);
    for (word, backward) in [("forward", false), ("backward", true)] {
        let mut add = |edition, doubt, cause| {
            list.only(edition, |list| add_doubt(list, doubt, format!("{cause}, {word}"), backward));
        };
        add(Edition::One, (11, BASE), "a direction in doubt");
        add(Edition::Two, (11, BASE), "edition 2: a marked circuit's direction in doubt");
        add(Edition::Two, (11, PEAK_BASE), "edition 2: a direction in doubt at peak");
        add(Edition::Two, (15, 0), "edition 2: a background in doubt");
    }
    list.only(Edition::One, |list| add_edges(list, Edition::One));
    list.only(Edition::Two, |list| add_edges(list, Edition::Two));
}

/// 11, 15: flows anywhere in a band.
fn add_doubt(list: &mut Faults, doubt: Doubt, cause: String, backward: bool) {
    list.case(doubt.0, doubt.1, cause, move |case, chance| in_doubt(case, chance, doubt, backward));
}

/// 11, 15: flows at the ends of a band.
fn add_edges(list: &mut Faults, edition: Edition) {
    // Edition 1 has no peak.
    let known = |doubt: Doubt| edition == Edition::Two || doubt.1 == BASE;
    for (cause, edge, doubt) in REFUSED.into_iter().filter(|(_, _, doubt)| known(*doubt)) {
        let cause = format!("edition {}: {MOVED} {cause}", edition.number());
        list.case(doubt.0, doubt.1, cause, move |case, chance| {
            let (moved, place) = at_edge(case, edge, Some(doubt), chance)?;
            *case = moved;
            Some(place as u64 + 1)
        });
    }
}

/// 10: misses past their limit.
fn add_misses(list: &mut Faults, system: usize, name: &str) {
    list.case(10, system as u64 + 1, format!("{name}: misses one step past 100,000,000"), move |case, chance| {
        let (place, step) = step_past(case, system, chance)?;
        case.runs[system][place] += step;
        Some(0)
    });
    list.case(10, system as u64 + 1, format!("{name}: a potential far off"), move |case, chance| {
        let place = any(chance, case.nodes.len()).filter(|place| *place != reference(case))?;
        let far = chance.of(&[300_000_000, -300_000_000, POTENTIAL[system] / 2]);
        let moved = case.runs[system][place]
            .checked_add(far)
            .filter(|number| number.unsigned_abs() <= POTENTIAL[system].unsigned_abs())?;
        case.runs[system][place] = moved;
        (!misses_pass(case, system)).then_some(0)
    });
}

/// 8: numbers out of range, and the reference's potential.
fn add_numbers(list: &mut Faults, system: usize, name: &str) {
    for (cause, sign) in [("above", 1), ("below", -1)] {
        list.case(8, system as u64 + 1, format!("{name}: a potential {cause} its range"), move |case, chance| {
            let place = any(chance, case.nodes.len())?;
            case.runs[system][place] = past(chance, POTENTIAL[system], sign);
            Some(place as u64 + 1)
        });
        list.case(8, system as u64 + 1, format!("{name}: a flow {cause} its range"), move |case, chance| {
            let place = case.nodes.len() + any(chance, case.circuits.len())?;
            case.runs[system][place] = past(chance, FLOW, sign);
            Some(place as u64 + 1)
        });
    }
    list.case(8, system as u64 + 1, format!("{name}: the reference's potential not 0"), move |case, chance| {
        let place = reference(case);
        case.runs[system][place] = chance.of(&[1, -1, 1_000_000_000, 1 << 32]);
        Some(place as u64 + 1)
    });
}

/// One past a limit, or the end of 64 bits.
fn past(chance: &mut Chance, limit: i64, sign: i64) -> i64 {
    let end = if sign > 0 { i64::MAX } else { i64::MIN };
    chance.of(&[sign * (limit + 1), sign * (limit + 1), end])
}

/// 9: a flow changed.
fn add_balance(list: &mut Faults, system: usize, name: &str) {
    list.case(9, system as u64 + 1, format!("{name}: a flow off by a little"), move |case, chance| {
        let by = chance.of(&[1, -1, 1_000_000]);
        change_flow(case, system, chance, |flow| flow + by)
    });
    list.case(9, system as u64 + 1, format!("{name}: a flow at the end of its range"), move |case, chance| {
        let to = chance.of(&[FLOW, -FLOW]);
        change_flow(case, system, chance, |_| to)
    });
}

/// Changes the flow of a circuit: the lower of its ends, where it stays in range and is another.
fn change_flow(case: &mut Case, system: usize, chance: &mut Chance, change: impl Fn(i64) -> i64) -> Option<u64> {
    let circuit = any(chance, case.circuits.len())?;
    let place = case.nodes.len() + circuit;
    let (old, row) = (case.runs[system][place], &case.circuits[circuit]);
    let new = change(old);
    let lowest = case.nodes.iter().position(|node| node.name == row.first || node.name == row.second)?;
    case.runs[system][place] = new;
    (new != old && new.abs() <= FLOW).then_some(lowest as u64 + 1)
}

/// The reference's place, from 0.
fn reference(case: &Case) -> usize {
    case.settings.reference as usize - 1
}

/// The sound tables of a case and one of its systems, by its place from 0.
fn system_of(case: &Case, place: usize) -> Option<(Tables, System)> {
    let tables = sound_tables(case).ok()?;
    let behind = length_systems(&tables, &lengths(&tables, case.lent()));
    let mut systems = base_systems(&tables).into_iter().chain(behind);
    let of = systems.find(|system| system.number as usize == place + 1)?;
    Some((tables, of))
}

/// Whether the tables are sound and the sum of the misses is within its limit.
pub fn misses_pass(case: &Case, system: usize) -> bool {
    system_of(case, system).is_some_and(|(tables, of)| misses(&tables, &of, &case.runs[system]) <= MISSES)
}

/// A node and the least change of its potential, up or down, that brings the sum of the misses past its limit. One less is accepted.
pub fn step_past(case: &Case, system: usize, chance: &mut Chance) -> Option<(usize, i64)> {
    let place = any(chance, case.nodes.len()).filter(|place| *place != reference(case))?;
    let (tables, of) = system_of(case, system)?;
    let sign = chance.of(&[1, -1]);
    let mut run = case.runs[system].clone();
    let old = run[place];
    let mut passes = |step: i64| {
        run[place] = old + sign * step;
        misses(&tables, &of, &run) <= MISSES
    };
    let (mut low, mut high) = (0, 2 * MISSES as i64 + 2);
    if old.unsigned_abs() + high as u64 > POTENTIAL[system] as u64 || !passes(0) || passes(high) {
        return None;
    }
    while high - low > 1 {
        let middle = (low + high) / 2;
        *(if passes(middle) { &mut low } else { &mut high }) = middle;
    }
    Some((place, sign * high))
}

/// 11, 15: a length for a circuit without one whose flows are in the band. In edition 2 the mark is what the doubt asks for.
fn in_doubt(case: &mut Case, chance: &mut Chance, doubt: Doubt, backward: bool) -> Option<u64> {
    let marked = |place: usize| match case.edition {
        Edition::One => case.circuits[place].mark == 1,
        Edition::Two => doubt == (11, BASE),
    };
    let flows = |place: usize| Flows { marked: marked(place), ..Flows::of(case, place) };
    let flow = |place: usize| flows(place).flow(if doubt.1 == PEAK_BASE { PEAK_BASE } else { BASE });
    let band = |place: &usize| {
        !has_length(&case.circuits[*place]) && flows(*place).doubt() == Some(doubt) && (flow(*place) < 0) == backward
    };
    let places: Vec<usize> = (0..case.circuits.len()).filter(band).collect();
    let place = places[any(chance, places.len())?];
    let mark = marked(place) as u32;
    let row = &mut case.circuits[place];
    row.mark = mark;
    *(if chance.within(0, 1) == 0 { &mut row.overhead } else { &mut row.cable }) = chance.of(&[1, 500_000]);
    Some(place as u64 + 1)
}
