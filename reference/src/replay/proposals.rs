//! 01 "What stops a case", 8, 9 and 10: proposed numbers, balance and misses of each system.

use super::bases::{circuit, kiln, kiln_marked, line, node, pair, station, zeros};
use super::{changed, solved, List};
use crate::file::Case;

/// The three systems by name, with their places among the runs.
const SYSTEMS: [(usize, &str); 3] = [(0, "base"), (1, "wider"), (2, "local")];
/// 01 "Quantities": the greatest magnitudes of potentials by system, and of flows.
pub(super) const POTENTIALS: [i64; 3] = [2_000_000_000_000_000_000, 10_000_000_000_000_000, 10_000_000_000_000_000];
pub(super) const FLOW: i64 = 100_000_000_000_000;

/// The three systems alike.
pub fn add(list: &mut List) {
    list.accepted("KILN with A-C marked", &kiln_marked(), |_| ());
    list.accepted("a line of three", &line(), |_| ());
    add_base_limits(list);
    add_length_limits(list);
    for (system, label) in SYSTEMS {
        add_ranges(list, system, label);
        add_reference(list, system, label);
        add_balance(list, system, label);
        add_misses(list, system, label);
    }
    add_misses_past_64_bits(list);
    add_mixed_up(list);
}

/// A chain from a station node of 100,000,000 kW past five of 20,000,000 kW demand each. Flows of 10^14, 8 x 10^13, ...,
/// 2 x 10^13 mW by these x give potentials 2 x 10^18 apart at its ends.
pub(super) fn longest_chain(reference: u32) -> Case {
    let texts = ["S0", "S1", "S2", "S3", "S4", "S5"];
    let mut case = pair(0, Vec::new());
    case.settings.reference = reference;
    case.nodes = texts.iter().map(|text| node(text, if *text == "S0" { 0 } else { 20_000_000 })).collect();
    let steps = texts.windows(2).zip([10_000, 10_000, 1_000, 1_000, 5_000]);
    case.circuits = steps.map(|(ends, x)| circuit(ends[0], ends[1], x, 1_000)).collect();
    case.stations = (0..5).map(|number| station(&format!("ST{number}"), "S0", 20_000_000)).collect();
    solved(&case)
}

/// Base potentials of 2 x 10^18 and flows of 10^14, met exactly; one past by a miss of 1, which alone would pass.
fn add_base_limits(list: &mut List) {
    let low = longest_chain(1);
    list.accepted("base potential -2 x 10^18, flow 10^14", &low, |_| ());
    list.refused("base potential -2 x 10^18 - 1", &low, |case| case.runs[0][5] -= 1, (8, 1, 6));
    list.accepted("base potential -2 x 10^18 + 1", &low, |case| case.runs[0][5] += 1);
    let high = longest_chain(6);
    list.accepted("base potential 2 x 10^18, flow 10^14", &high, |_| ());
    list.refused("base potential 2 x 10^18 + 1", &high, |case| case.runs[0][0] += 1, (8, 1, 1));
    list.refused("base flow 10^14 + 1", &high, |case| case.runs[0][6] += 1, (8, 1, 7));
    list.refused("base flow 10^14 - 1", &high, |case| case.runs[0][6] -= 1, (9, 1, 1));
    let turn = |case: &mut Case| {
        let row = &mut case.circuits[0];
        std::mem::swap(&mut row.first, &mut row.second);
        case.runs[0][6] = -case.runs[0][6];
    };
    list.accepted("base flow -10^14", &high, turn);
    list.refused("base flow -10^14 - 1", &high, |case| (turn(case), case.runs[0][6] -= 1).1, (8, 1, 7));
    list.refused("base flow -10^14 + 1", &high, |case| (turn(case), case.runs[0][6] += 1).1, (9, 1, 1));
}

/// One circuit of 10^16 nm, from the end given or to it.
fn longest_pair(reference: u32, mark: u32) -> Case {
    let mut case = pair(1_000, vec![circuit("GENR", "LOAD", 1, 500_000)]);
    (case.circuits[0].voltage, case.circuits[0].mark) = (275, mark);
    case.settings.factors[2] = 20_000;
    case.settings.reference = reference;
    solved(&case)
}

/// Two circuits side by side, one of them 200,000 m longer: 10^14 nm a unit of x flow round.
fn round_flow(longer: usize, mark: u32) -> Case {
    let mut case = pair(1_000, vec![circuit("GENR", "LOAD", 1, 0); 2]);
    case.circuits[longer].overhead = 200_000;
    case.circuits.iter_mut().for_each(|row| row.mark = mark);
    solved(&case)
}

/// Wider and local potentials of 10^16 and flows of 10^14, met exactly; one past by misses of 1, which alone would pass.
fn add_length_limits(list: &mut List) {
    for (system, label) in &SYSTEMS[1..] {
        let (system, number, mark) = (*system, *system as u32 + 1, *system as u32 - 1);
        let low = longest_pair(1, mark);
        list.accepted(format!("{label} potential -10^16"), &low, |_| ());
        list.refused(format!("{label} potential -10^16 - 1"), &low, |case| case.runs[system][1] -= 1, (8, number, 2));
        list.accepted(format!("{label} potential -10^16 + 1"), &low, |case| case.runs[system][1] += 1);
        let high = longest_pair(2, mark);
        list.accepted(format!("{label} potential 10^16"), &high, |_| ());
        list.refused(format!("{label} potential 10^16 + 1"), &high, |case| case.runs[system][0] += 1, (8, number, 1));
        list.accepted(format!("{label} potential 10^16 - 1"), &high, |case| case.runs[system][0] -= 1);
        let more = |case: &mut Case| case.runs[system][2..].iter_mut().for_each(|flow| *flow += flow.signum());
        let less = |case: &mut Case| case.runs[system][2..].iter_mut().for_each(|flow| *flow -= flow.signum());
        for (longer, sign) in [(1, ""), (0, "-")] {
            let round = round_flow(longer, mark);
            list.accepted(format!("{label} flow {sign}10^14"), &round, |_| ());
            list.refused(format!("{label} flow {sign}10^14 and one more"), &round, more, (8, number, 3));
            list.accepted(format!("{label} flow {sign}10^14 and one less"), &round, less);
        }
        let second = |case: &mut Case| case.runs[system][3] -= 1;
        list.refused(format!("{label} flow -10^14 - 1 in the second"), &round_flow(1, mark), second, (8, number, 4));
    }
}

/// Numbers far out of range, at the first and the last place, and the lowest of two.
fn add_ranges(list: &mut List, system: usize, label: &str) {
    let base = kiln_marked();
    let number = system as u32 + 1;
    for (what, value) in [("least", i64::MIN), ("greatest", i64::MAX)] {
        for (place, of) in [(0, "potential 1"), (2, "potential 3, the reference's,"), (3, "flow 1"), (5, "flow 3")] {
            let set = |case: &mut Case| case.runs[system][place] = value;
            list.refused(format!("{label} {of} the {what} of 64 bits"), &base, set, (8, number, place as u32 + 1));
        }
        let all = |case: &mut Case| case.runs[system].fill(value);
        list.refused(format!("{label} all the {what} of 64 bits"), &base, all, (8, number, 1));
        let flows = |case: &mut Case| case.runs[system][3..].fill(value);
        list.refused(format!("{label} flows the {what} of 64 bits"), &base, flows, (8, number, 4));
    }
    for (sign, word) in [(1, "above zero"), (-1, "below zero")] {
        // At the limit the number passes 8 and misses by far.
        let limit = |case: &mut Case| case.runs[system][1] = sign * POTENTIALS[system];
        list.refused(format!("{label} potential 2 at its limit {word}"), &base, limit, (10, number, 0));
        let past = |case: &mut Case| case.runs[system][1] = sign * (POTENTIALS[system] + 1);
        list.refused(format!("{label} potential 2 one past its limit {word}"), &base, past, (8, number, 2));
        // A flow at the limit breaks the balance.
        let limit = |case: &mut Case| case.runs[system][4] = sign * FLOW;
        list.refused(format!("{label} flow 2 at its limit {word}"), &base, limit, (9, number, 2));
        let past = |case: &mut Case| case.runs[system][4] = sign * (FLOW + 1);
        list.refused(format!("{label} flow 2 one past its limit {word}"), &base, past, (8, number, 5));
        // A potential may be where a flow may not.
        let beyond_flows = |case: &mut Case| case.runs[system][1] = sign * (FLOW + 1);
        list.refused(format!("{label} potential 2 past a flow's limit {word}"), &base, beyond_flows, (10, number, 0));
    }
    let two = |case: &mut Case| (case.runs[system][1], case.runs[system][3]) = (i64::MAX, i64::MAX);
    list.refused(format!("{label} potential 2 and flow 1 out of range"), &base, two, (8, number, 2));
    let two = |case: &mut Case| (case.runs[system][4], case.runs[system][5]) = (FLOW + 1, -FLOW - 1);
    list.refused(format!("{label} flows 2 and 3 out of range"), &base, two, (8, number, 5));
}

/// The reference's potential, also beside numbers out of range before and behind it.
fn add_reference(list: &mut List, system: usize, label: &str) {
    let number = system as u32 + 1;
    let last = kiln_marked();
    for potential in [1, -1, 1 << 32] {
        let set = |case: &mut Case| case.runs[system][2] = potential;
        list.refused(format!("{label}: the reference's potential {potential}"), &last, set, (8, number, 3));
    }
    let shift = |case: &mut Case| case.runs[system][..3].iter_mut().for_each(|potential| *potential += 1);
    list.refused(format!("{label}: every potential 1 higher"), &last, shift, (8, number, 3));
    let middle = solved(&changed(&last, |case| case.settings.reference = 2));
    let before = |case: &mut Case| (case.runs[system][0], case.runs[system][1]) = (i64::MAX, 1);
    list.refused(format!("{label}: a potential out of range before the reference's"), &middle, before, (8, number, 1));
    let behind = |case: &mut Case| (case.runs[system][1], case.runs[system][2]) = (1, i64::MAX);
    list.refused(format!("{label}: a potential out of range behind the reference's"), &middle, behind, (8, number, 2));
    let flow = |case: &mut Case| (case.runs[system][1], case.runs[system][3]) = (-1, i64::MIN);
    list.refused(
        format!("{label}: a flow out of range and the reference's potential -1"),
        &middle,
        flow,
        (8, number, 2),
    );
    let first = solved(&changed(&last, |case| case.settings.reference = 1));
    list.refused(
        format!("{label}: the first node's potential 1"),
        &first,
        |case| case.runs[system][0] = 1,
        (8, number, 1),
    );
}

/// Flows that don't balance: circuits 1 A-B, 2 B-C, 3 A-C.
fn add_balance(list: &mut List, system: usize, label: &str) {
    let base = kiln_marked();
    let number = system as u32 + 1;
    for by in [1, -1, 1_000_000] {
        for (flow, ends, lowest) in [(3, "1 and 2", 1), (4, "2 and 3", 2), (5, "1 and 3", 1)] {
            let add = |case: &mut Case| case.runs[system][flow] += by;
            list.refused(format!("{label}: balance broken by {by} at nodes {ends}"), &base, add, (9, number, lowest));
        }
    }
    let all = |case: &mut Case| (case.runs[system][3], case.runs[system][4]) = (0, 0);
    list.refused(format!("{label}: balance broken at all nodes"), &base, all, (9, number, 1));
    // Round the loop it balances; each milliwatt is a miss of 400.
    let round = |by: i64| {
        move |case: &mut Case| {
            let flows = &mut case.runs[system][3..];
            (flows[0], flows[1], flows[2]) = (flows[0] + by, flows[1] + by, flows[2] - by);
        }
    };
    list.accepted(format!("{label}: 1 round the loop"), &base, round(1));
    list.accepted(format!("{label}: 250,000 round the loop"), &base, round(250_000));
    list.accepted(format!("{label}: -250,000 round the loop"), &base, round(-250_000));
    list.refused(format!("{label}: 250,001 round the loop"), &base, round(250_001), (10, number, 0));
    list.refused(format!("{label}: -250,001 round the loop"), &base, round(-250_001), (10, number, 0));
}

/// Misses that sum to 100,000,000 and one more, in one circuit, in two, and in two that cancel each other.
fn add_misses(list: &mut List, system: usize, label: &str) {
    let number = system as u32 + 1;
    let base = line();
    // GENR's potential by `first`, MID's by `second`: misses of first - second and second.
    let moved = |first: i64, second: i64| {
        move |case: &mut Case| {
            case.runs[system][0] += first;
            case.runs[system][1] += second;
        }
    };
    let limit = 100_000_000;
    for (first, second) in [(limit, 0), (-limit, 0), (limit, limit), (-limit, -limit), (0, limit / 2), (0, -limit / 2)]
    {
        list.accepted(format!("{label}: misses {} and {second}", first - second), &base, moved(first, second));
    }
    let past = [
        (limit + 1, 0),
        (-limit - 1, 0),
        (limit + 1, limit + 1),
        (-limit - 1, -limit - 1),
        (1, -limit / 2),
        (-1, limit / 2),
        (0, limit),
        (1 << 32, 0),
        (-(1 << 32), 0),
    ];
    for (first, second) in past {
        let label = format!("{label}: misses {} and {second}", first - second);
        list.refused(label, &base, moved(first, second), (10, number, 0));
    }
    // A's potential by `first`, B's by less: misses of first - second, second and first.
    let three = |first: i64| {
        move |case: &mut Case| {
            case.runs[system][0] += first;
            case.runs[system][1] += first / 3;
        }
    };
    let base = kiln_marked();
    list.accepted(format!("{label}: three misses that sum to 100,000,000"), &base, three(50_000_000));
    list.accepted(format!("{label}: three misses below zero that sum to 100,000,000"), &base, three(-50_000_000));
    list.refused(format!("{label}: three misses that sum to 100,000,002"), &base, three(50_000_001), (10, number, 0));
}

/// Misses whose sum is exactly 2^64: nothing, in 64 bits. Supply is 0 everywhere, so that any flow round balances.
fn add_misses_past_64_bits(list: &mut List) {
    let mut case = pair(1_000, vec![circuit("HIGH", "LOW", 1, 0); 4]);
    case.nodes = vec![node("GENR", 1_000), node("HIGH", 0), node("LOW", 0)];
    case.circuits.push(circuit("GENR", "HIGH", 1, 0));
    (case.circuits[0].x, case.circuits[1].x) = (10_000, 9_999);
    case.runs = zeros(&case);
    // Four circuits of 4 x 10^18 and one of 2 x 10^18, less x times flow.
    let limit = POTENTIALS[0];
    (case.runs[0][1], case.runs[0][2]) = (limit, -limit);
    list.refused("base: misses that sum to 18 x 10^18", &case, |_| (), (10, 1, 0));
    case.runs[0][3..7].copy_from_slice(&round_flows(9 * limit as i128 - (1 << 64)));
    list.refused("base: misses that sum to 2^64", &case, |_| (), (10, 1, 0));
}

/// Flows of circuits with x 10,000, 9,999, 1 and 1 that add up to 0 and whose products with x add up to `sum`.
fn round_flows(sum: i128) -> [i64; 4] {
    // 10,000 f + 9,999 g - (f + g) is 9,999 f + 9,998 g: the rest of `sum` by 9,998 is that of f.
    let step = 9_998;
    let f = sum.rem_euclid(step) + step * (sum / 2 / 9_999 / step);
    let g = (sum - 9_999 * f) / step;
    let back = -(f + g);
    [f, g, back / 2, back - back / 2].map(|flow| flow as i64)
}

/// Solutions of another system or another case.
fn add_mixed_up(list: &mut List) {
    let base = kiln_marked();
    list.refused("wider in place of base", &base, |case| case.runs[0] = case.runs[1].clone(), (9, 1, 1));
    list.refused("base in place of wider", &base, |case| case.runs[1] = case.runs[0].clone(), (9, 2, 1));
    list.refused("wider and local exchanged", &base, |case| case.runs.swap(1, 2), (10, 2, 0));
    list.refused("wider in place of local", &base, |case| case.runs[2] = case.runs[1].clone(), (10, 3, 0));
    list.refused("base of zeros", &base, |case| case.runs[0].fill(0), (9, 1, 1));
    list.refused("wider of zeros", &base, |case| case.runs[1].fill(0), (10, 2, 0));
    list.refused("local of zeros", &base, |case| case.runs[2].fill(0), (10, 3, 0));
    list.refused("wider turned round", &base, |case| case.runs[1].iter_mut().for_each(|n| *n = -*n), (10, 2, 0));
    let all = |case: &mut Case| case.own_runs_mut().iter_mut().for_each(|run| run.fill(i64::MIN));
    list.refused("all solutions the least of 64 bits", &kiln(), all, (8, 1, 1));
    list.refused("all solutions of zeros", &kiln(), |case| case.runs = zeros(case), (9, 1, 1));
    list.refused(
        "all solutions of -1",
        &kiln(),
        |case| case.own_runs_mut().iter_mut().for_each(|run| run.fill(-1)),
        (8, 1, 3),
    );
}
