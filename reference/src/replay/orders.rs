//! 01 "What stops a case", order: every two faults, and each fault with all that come behind it.

use super::bases::{kiln_with_a_spur, name};
use super::List;
use crate::file::Case;

/// A fault of KILN with its spur, by its answer.
type Fault = ((u32, u32, u32), fn(&mut Case));

/// One fault a number and system, in 01's order. An earlier one stands in a late row where it can, a later one in an
/// early row.
pub(super) const FAULTS: [Fault; 16] = [
    ((2, 0, 0), |case| case.settings.p = 1_001),
    ((3, 0, 4), |case| case.nodes[3].demand_zone = 2),
    ((4, 0, 2), |case| case.circuits[1].x = 0),
    ((5, 0, 1), |case| case.stations[0].plant = 0),
    ((6, 0, 4), |case| case.circuits[3].second = name("NODA")),
    ((7, 0, 0), |case| case.stations[0].tec = 0),
    ((8, 1, 8), |case| case.runs[0][7] = i64::MAX),
    ((9, 1, 2), |case| case.runs[0][5] += 1),
    ((10, 1, 0), |case| case.runs[0][0] += 60_000_000),
    ((11, 1, 4), |case| case.circuits[3].overhead = 1),
    ((8, 2, 8), |case| case.runs[1][7] = i64::MIN),
    ((9, 2, 2), |case| case.runs[1][5] += 1),
    ((10, 2, 0), |case| case.runs[1][0] += 60_000_000),
    ((8, 3, 8), |case| case.runs[2][7] = i64::MIN),
    ((9, 3, 2), |case| case.runs[2][5] += 1),
    ((10, 3, 0), |case| case.runs[2][0] += 60_000_000),
];

/// Single faults, pairs, and all from one on.
pub fn add(list: &mut List) {
    let base = kiln_with_a_spur();
    for (place, (answer, fault)) in FAULTS.into_iter().enumerate() {
        list.refused(said(answer), &base, fault, answer);
        for (other, later) in &FAULTS[place + 1..] {
            let both = |case: &mut Case| (later(case), fault(case)).1;
            list.refused(format!("{} before {}", said(answer), said(*other)), &base, both, answer);
        }
        if place + 2 < FAULTS.len() {
            let all = |case: &mut Case| FAULTS[place..].iter().rev().for_each(|(_, fault)| fault(case));
            list.refused(format!("{} before all behind it", said(answer)), &base, all, answer);
        }
    }
}

/// A fault's number, and its system where it has one.
pub(super) fn said((number, system, _): (u32, u32, u32)) -> String {
    match system {
        0 => number.to_string(),
        _ => format!("{number} of system {system}"),
    }
}
