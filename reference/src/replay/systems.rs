//! 02, CR 5: 8, 9 and 10 of each of the five systems, and the order of all faults: "8 to 10 for systems 1 and 4; 15; 11; 8 to
//! 10 for 2, 5 and 3".

use super::bases::name;
use super::edition_2::{ring, side_by_side, spoke, spokes, twin, Stands, BASES, SYSTEMS};
use super::orders::said;
use super::proposals::{longest_chain, FLOW, POTENTIALS};
use super::{changed, List};
use crate::file::Case;
use crate::tables::INTERCONNECTOR;

/// Limits, numbers out of range, balance, misses; then the order.
pub fn add(list: &mut List) {
    for (run, number, label) in SYSTEMS {
        add_ranges(list, run, number, label);
        add_balance(list, run, number, label);
        add_misses(list, run, number, label);
    }
    for (run, number, label) in &SYSTEMS[3..] {
        add_ends(list, *run, *number, label);
    }
    add_base_limits(list);
    add_potential_limits(list);
    add_flow_limits(list);
    add_singles(list);
    add_pairs(list);
    add_all_behind(list);
    add_before_systems(list);
    add_eleven_of_system_1(list);
}

/// 01 "Quantities": the greatest magnitude of a potential of a run.
fn potential_limit(run: usize) -> i64 {
    POTENTIALS[!BASES.contains(&run) as usize]
}

/// Numbers one past their limits, and the reference's potential.
fn add_ranges(list: &mut List, run: usize, number: u32, label: &str) {
    let potential = potential_limit(run);
    let refused = [
        ("potential 2 one past its limit above zero", 1, potential + 1, (8, 2)),
        ("flow 2 one past its limit below zero", 4, -FLOW - 1, (8, 5)),
        ("flow 3 the least of 64 bits", 5, i64::MIN, (8, 6)),
        ("the reference's potential 1", 2, 1, (8, 3)),
    ];
    for (what, place, value, answer) in refused {
        add_number(list, (run, number, label), what, (place, value), answer);
    }
    let two = |case: &mut Case| (case.runs[run][2], case.runs[run][3]) = (1, FLOW + 1);
    list.refused(format!("edition 2, {label}: the reference's potential and a flow"), &ring(), two, (8, number, 3));
}

/// The ring with one number of a system changed.
fn add_number(
    list: &mut List,
    (run, number, label): (usize, u32, &str),
    what: &str,
    (place, value): (usize, i64),
    (refused, row): (u32, u32),
) {
    let set = |case: &mut Case| case.runs[run][place] = value;
    list.refused(format!("edition 2, {label}: {what}"), &ring(), set, (refused, number, row));
}

/// More of peak's numbers: at the ends of 64 bits, and at their limits, where a potential misses by far and a flow breaks the
/// balance.
fn add_ends(list: &mut List, run: usize, number: u32, label: &str) {
    let potential = potential_limit(run);
    let refused = [
        ("potential 1 the least of 64 bits", 0, i64::MIN, (8, 1)),
        ("potential 2 the greatest of 64 bits", 1, i64::MAX, (8, 2)),
        ("flow 1 the greatest of 64 bits", 3, i64::MAX, (8, 4)),
        ("potential 2 one past its limit below zero", 1, -potential - 1, (8, 2)),
        ("flow 2 one past its limit above zero", 4, FLOW + 1, (8, 5)),
        ("the reference's potential -1", 2, -1, (8, 3)),
        ("potential 2 at its limit above zero", 1, potential, (10, 0)),
        ("potential 2 at its limit below zero", 1, -potential, (10, 0)),
        ("flow 2 at its limit above zero", 4, FLOW, (9, 2)),
        ("flow 2 at its limit below zero", 4, -FLOW, (9, 2)),
    ];
    for (what, place, value, answer) in refused {
        add_number(list, (run, number, label), what, (place, value), answer);
    }
    let all = |case: &mut Case| case.runs[run].fill(i64::MIN);
    list.refused(format!("edition 2, {label}: all the least of 64 bits"), &ring(), all, (8, number, 1));
}

/// Flows that don't balance: circuits 1 A-B, 2 B-C, 3 A-C; and flows round the ring, where each milliwatt is a miss of 400.
fn add_balance(list: &mut List, run: usize, number: u32, label: &str) {
    for (flow, by, ends, lowest) in [(3, 1, "1 and 2", 1), (4, -1, "2 and 3", 2), (5, 1, "1 and 3", 1)] {
        let add = |case: &mut Case| case.runs[run][flow] += by;
        let label = format!("edition 2, {label}: balance broken by {by} at nodes {ends}");
        list.refused(label, &ring(), add, (9, number, lowest));
    }
    let round = |by: i64| {
        move |case: &mut Case| {
            let flows = &mut case.runs[run][3..];
            (flows[0], flows[1], flows[2]) = (flows[0] + by, flows[1] + by, flows[2] - by);
        }
    };
    for sign in [1, -1] {
        list.accepted(format!("edition 2, {label}: {} round", sign * 250_000), &ring(), round(sign * 250_000));
        let label = format!("edition 2, {label}: {} round", sign * 250_001);
        list.refused(label, &ring(), round(sign * 250_001), (10, number, 0));
    }
}

/// A miss of 100,000,000 in one circuit and one more, and in two that cancel each other.
fn add_misses(list: &mut List, run: usize, number: u32, label: &str) {
    let [year_round, peak, local] =
        [([5_000, 1_000], Stands::YearRound), ([1_000, 5_000], Stands::Peak), ([3_000, 3_000], Stands::Local)]
            .map(|(kw, stands)| spoke(kw, 1_000, stands));
    let case = spokes(&[year_round, peak, local]);
    let moved = |by: [i64; 2]| {
        move |case: &mut Case| {
            case.runs[run][0] += by[0];
            case.runs[run][1] += by[1];
        }
    };
    let limit = 100_000_000;
    for by in [[limit, 0], [0, -limit], [limit / 2, -limit / 2]] {
        list.accepted(format!("edition 2, {label}: misses {} and {}", by[0], by[1]), &case, moved(by));
    }
    for by in [[limit + 1, 0], [0, -limit - 1], [limit / 2 + 1, -limit / 2]] {
        let label = format!("edition 2, {label}: misses {} and {}", by[0], by[1]);
        list.refused(label, &case, moved(by), (10, number, 0));
    }
}

/// Base potentials of 2 x 10^18 and flows of 10^14 in both backgrounds; one past by a miss of 1, which alone would pass.
fn add_base_limits(list: &mut List) {
    for (reference, end, sign, way) in [(1, 5, -1, "below zero"), (6, 0, 1, "above zero")] {
        let case = twin(&longest_chain(reference));
        list.accepted(format!("edition 2: base potentials of 2 x 10^18 {way}"), &case, |_| ());
        for run in BASES {
            let (_, number, label) = SYSTEMS[run];
            let set = |case: &mut Case| case.runs[run][end] += sign;
            let label = |what: &str| format!("edition 2: {label} {what} {way}");
            list.refused(label("potential of 2 x 10^18 + 1"), &case, set, (8, number, end as u32 + 1));
            list.accepted(label("potential of 2 x 10^18 - 1"), &case, |case| case.runs[run][end] -= sign);
            let flow = |by: i64| move |case: &mut Case| case.runs[run][6] += by;
            list.refused(label("flow of 10^14 + 1, potentials"), &case, flow(1), (8, number, 7));
            list.refused(label("flow of 10^14 - 1, potentials"), &case, flow(-1), (9, number, 1));
        }
    }
}

/// Flows in kW of a spoke whose length stands in each system.
const KILOWATTS: [(Stands, u32, [i64; 2]); 3] =
    [(Stands::YearRound, 2, [5_000, 0]), (Stands::Peak, 5, [0, 5_000]), (Stands::Local, 3, [5_000, 5_000])];

/// Wider and local potentials of 10^16, from above and from below.
fn add_potential_limits(list: &mut List) {
    for (stands, number, kw) in KILOWATTS {
        let (run, _) = stands.places().expect("a system");
        for (sign, way) in [(1, "above zero"), (-1, "below zero")] {
            let case = changed(&spokes(&[spoke(kw.map(|kw| sign * kw), 500_000, stands)]), |case| {
                case.circuits[0].factor = 20_000;
                case.runs[run][0] = sign * POTENTIALS[1];
            });
            let label = |what: &str| format!("edition 2: {} potential of {what} {way}", stands.word());
            let moved = |by: i64| move |case: &mut Case| case.runs[run][0] += sign * by;
            list.accepted(label("10^16"), &case, |_| ());
            list.refused(label("10^16 + 1"), &case, moved(1), (8, number, 1));
            list.accepted(label("10^16 - 1"), &case, moved(-1));
        }
    }
}

/// Wider and local flows of 10^14: two circuits side by side, one of them 200,000 m longer.
fn add_flow_limits(list: &mut List) {
    for (stands, number, kw) in KILOWATTS {
        let (run, _) = stands.places().expect("a system");
        for (sign, way) in [(1, "backwards"), (-1, "forwards")] {
            let mark = (stands == Stands::Local) as u32;
            let case = side_by_side(kw.map(|kw| sign * 1_000_000 * kw), 200_000, mark, stands);
            let label = |what: &str| format!("edition 2: {} flow of {what} {way}", stands.word());
            let moved = |by: i64| {
                move |case: &mut Case| case.runs[run][2..].iter_mut().for_each(|flow| *flow += by * flow.signum())
            };
            list.accepted(label("10^14"), &case, |_| ());
            list.refused(label("10^14 + 1"), &case, moved(1), (8, number, 3));
            list.accepted(label("10^14 - 1"), &case, moved(-1));
        }
    }
}

/// A fault of `doubtful`, by its answer.
pub(super) type Fault = ((u32, u32, u32), fn(&mut Case));

/// How many of `FAULTS` aren't of solutions.
pub(super) const TABLES: usize = 8;

/// One fault a number and system, in 02's order. An earlier one stands in a late row where it can, a later one in an early
/// row: 11 before 15.
pub(super) const FAULTS: [Fault; 25] = [
    ((2, 0, 0), |case| case.settings.p = 1_001),
    ((3, 0, 3), |case| case.nodes[2].demand_zone = 2),
    ((4, 0, 2), |case| case.circuits[1].x = 0),
    ((5, 0, 1), |case| case.stations[0].plant = 0),
    ((6, 0, 2), |case| case.circuits[1].first = name("S1")),
    ((7, 0, 0), |case| case.nodes[2].demand += 10_000),
    ((13, 0, 0), |case| case.stations.iter_mut().for_each(|row| row.plant = INTERCONNECTOR)),
    ((14, 0, 0), |case| case.nodes[2].demand += 1),
    ((8, 1, 5), |case| case.runs[0][4] = i64::MAX),
    ((9, 1, 1), |case| case.runs[0][3] += 1),
    ((10, 1, 0), |case| case.runs[0][1] += 100_000_001),
    ((8, 4, 5), |case| case.runs[3][4] = i64::MIN),
    ((9, 4, 1), |case| case.runs[3][3] += 1),
    ((10, 4, 0), |case| case.runs[3][1] += 100_000_001),
    ((15, 0, 2), |case| case.circuits[1].overhead = 1),
    ((11, 4, 1), |case| case.circuits[0].overhead = 1),
    ((8, 2, 5), |case| case.runs[1][4] = i64::MIN),
    ((9, 2, 1), |case| case.runs[1][3] += 1),
    ((10, 2, 0), |case| case.runs[1][1] += 100_000_001),
    ((8, 5, 5), |case| case.runs[4][4] = i64::MAX),
    ((9, 5, 1), |case| case.runs[4][3] += 1),
    ((10, 5, 0), |case| case.runs[4][1] += 100_000_001),
    ((8, 3, 5), |case| case.runs[2][4] = i64::MIN),
    ((9, 3, 1), |case| case.runs[2][3] += 1),
    ((10, 3, 0), |case| case.runs[2][1] += 100_000_001),
];

/// Two spokes without length: with one the first would be in doubt of its direction, at peak or marked, and the second of its
/// background.
pub(super) fn doubtful() -> Case {
    spokes(&[spoke([-300, 300], 0, Stands::Nowhere), spoke([1_600, 1_000], 0, Stands::Nowhere)])
}

/// Every fault alone.
fn add_singles(list: &mut List) {
    list.accepted("edition 2: no fault", &doubtful(), |_| ());
    for (answer, fault) in FAULTS {
        list.refused(format!("edition 2: {}", said(answer)), &doubtful(), fault, answer);
    }
}

/// A case with two faults, the earlier one told.
fn add_pair(list: &mut List, (answer, fault): Fault, (other, later): Fault) {
    let both = |case: &mut Case| (later(case), fault(case)).1;
    list.refused(format!("edition 2: {} before {}", said(answer), said(other)), &doubtful(), both, answer);
}

/// What is judged at one time: a system's three numbers, 15, 11.
fn judged_together((number, system, _): (u32, u32, u32)) -> u32 {
    match number {
        11 | 15 => 10 + number,
        _ => system,
    }
}

/// Every two faults of different systems, 15 and 11 among them; of one system 8 before 9 and 9 before 10.
fn add_pairs(list: &mut List) {
    let proposed = &FAULTS[TABLES..];
    for (place, first) in proposed.iter().enumerate() {
        for (further, second) in proposed[place + 1..].iter().enumerate() {
            if further == 0 || judged_together(first.0) != judged_together(second.0) {
                add_pair(list, *first, *second);
            }
        }
    }
}

/// Each fault with all later ones.
fn add_all_behind(list: &mut List) {
    for place in 0..FAULTS.len() - 2 {
        let answer = FAULTS[place].0;
        let all = |case: &mut Case| FAULTS[place..].iter().rev().for_each(|(_, fault)| fault(case));
        list.refused(format!("edition 2: {} before all behind it", said(answer)), &doubtful(), all, answer);
    }
}

/// Each fault of the tables with the next; 14 with 7, with 13 and before every 8, 15 and 11.
fn add_before_systems(list: &mut List) {
    for two in FAULTS[..TABLES].windows(2) {
        add_pair(list, two[0], two[1]);
    }
    let fourteen = FAULTS[TABLES - 1];
    add_pair(list, FAULTS[TABLES - 3], fourteen);
    for fault in FAULTS[TABLES + 1..].iter().filter(|((number, ..), _)| [8, 15, 11].contains(number)) {
        add_pair(list, fourteen, *fault);
    }
}

/// 11 of a marked circuit, which goes by year round's flow: behind 15 and all of systems 1 and 4, before all of 2, 5 and 3.
fn add_eleven_of_system_1(list: &mut List) {
    let base = doubtful();
    let eleven = |case: &mut Case| (case.circuits[0].overhead, case.circuits[0].mark) = (1, 1);
    list.refused("edition 2: 11 of system 1", &base, eleven, (11, 1, 1));
    let place = FAULTS.iter().position(|((number, ..), _)| *number == 11).expect("a fault of 11");
    for (answer, fault) in &FAULTS[TABLES..place] {
        let both = |case: &mut Case| (eleven(case), fault(case)).1;
        list.refused(format!("edition 2: {} before 11 of system 1", said(*answer)), &base, both, *answer);
    }
    for (answer, fault) in &FAULTS[place + 1..] {
        let both = |case: &mut Case| (fault(case), eleven(case)).1;
        list.refused(format!("edition 2: 11 of system 1 before {}", said(*answer)), &base, both, (11, 1, 1));
    }
}
