//! 01 "Steps", "Figures on the edges" and "Errors that look right": cases whose sheets turn on one rounding, one sign or
//! one rule, and the greatest figures.

use super::bases::{circuit, kiln, kiln_zoned, name, named_case, node, pair, station, zoned_node};
use super::{changed, solved, List};
use crate::file::{Case, CircuitRow};

/// Steps 1 to 10 in turn, then the greatest figures.
pub fn add(list: &mut List) {
    add_scaled_generation(list);
    add_stations_hidden(list);
    add_halves_of_metres(list);
    add_halves_of_averages(list);
    add_halves_of_c(list);
    add_halves_of_tariffs(list);
    add_residuals(list);
    add_zones(list);
    add_nodes_without(list);
    add_greatest(list);
    list.solved("a long sheet", &long_sheet(), |_| ());
}

/// Nodes around a hub that has all demand, joined without length, by TEC.
pub(super) fn star(tec: &[u32], demand: u32) -> Case {
    let text = |place: usize| format!("G{}", place + 1);
    let mut case = pair(demand, Vec::new());
    case.nodes = (0..tec.len()).map(|place| node(&text(place), 0)).collect();
    case.nodes.push(node("LOAD", demand));
    case.settings.reference = case.nodes.len() as u32;
    case.circuits = (0..tec.len()).map(|place| circuit(&text(place), "LOAD", 1, 0)).collect();
    let sized = tec.iter().enumerate().filter(|(_, kw)| **kw > 0);
    case.stations = sized.map(|(place, kw)| station(&format!("S{place}"), &text(place), *kw)).collect();
    solved(&case)
}

/// Step 1: missing kilowatts to the first nodes that have something left over; base solutions of other spreads.
fn add_scaled_generation(list: &mut List) {
    let base = star(&[1, 1, 1], 2);
    let spread = |kw: [i64; 3]| {
        move |case: &mut Case| case.runs[0] = kw.iter().chain(&[0]).chain(&kw).map(|kw| 1_000_000 * kw).collect()
    };
    list.accepted("three nodes of 1 kW, demand 2 kW: 1, 1, 0", &base, spread([1, 1, 0]));
    list.refused("three nodes of 1 kW, demand 2 kW: 1, 0, 1", &base, spread([1, 0, 1]), (9, 1, 2));
    list.refused("three nodes of 1 kW, demand 2 kW: 0, 1, 1", &base, spread([0, 1, 1]), (9, 1, 1));
    list.refused("three nodes of 1 kW, demand 2 kW: 2, 0, 0", &base, spread([2, 0, 0]), (9, 1, 1));
    list.refused("three nodes of 1 kW, demand 2 kW: 1, 1, 1", &base, spread([1, 1, 1]), (9, 1, 3));
    list.accepted("nodes of 2, 1, 1 kW, demand 2 kW: the first divides", &star(&[2, 1, 1], 2), |_| ());
    list.refused("nodes of 2, 1, 1 kW, demand 2 kW: 2, 0, 0", &star(&[2, 1, 1], 2), spread([2, 0, 0]), (9, 1, 1));
    list.refused("nodes of 2, 1, 1 kW, demand 2 kW: 1, 0, 1", &star(&[2, 1, 1], 2), spread([1, 0, 1]), (9, 1, 2));
    list.accepted("nodes of 0, 1, 0, 1, 1 kW, demand 2 kW", &star(&[0, 1, 0, 1, 1], 2), |_| ());
    list.accepted("nodes of 1, 1, 1 kW, demand 3 kW: nothing missing", &star(&[1, 1, 1], 3), |_| ());
    list.accepted("nodes of 1, 1, 1 kW, demand 1 kW", &star(&[1, 1, 1], 1), |_| ());
    list.accepted("nodes of 7, 11, 13, 17 kW, demand 29 kW", &star(&[7, 11, 13, 17], 29), |_| ());
    let primes = star(&[19_999_999, 19_999_981, 19_999_967], 19_999_963);
    list.accepted("nodes of nearly 20,000,000 kW, products past 32 bits", &primes, |_| ());
}

/// "Spreading the rounding kilowatts over stations": only a node's sum counts.
fn add_stations_hidden(list: &mut List) {
    let split = |case: &mut Case| {
        case.stations[0].tec = 1;
        case.stations.push(station("GEN_3", "NODA", 199_998));
        case.stations.insert(0, station("GEN_4", "NODA", 1));
    };
    list.accepted("KILN with NODA's station in three", &kiln(), split);
    let types = |case: &mut Case| {
        case.stations[0].tec = 200_000 - 6 * 11_111;
        for plant in 1..=6 {
            case.stations.push(station(&format!("TYPE_{plant}"), "NODA", 11_111));
            case.stations.last_mut().expect("just put").plant = plant;
        }
    };
    list.accepted("KILN with stations of all seven types at NODA", &kiln(), types);
    list.accepted("KILN with its stations in the other order", &kiln(), |case| case.stations.reverse());
    // By stations the missing kilowatt would go to G2, whose stations stand first.
    let two = changed(&star(&[1, 2], 1), |case| {
        case.stations = vec![station("A", "G2", 1), station("B", "G2", 1), station("C", "G1", 1)];
    });
    list.solved("nodes of 1 and 2 kW, the second's stations first", &two, |_| ());
    let other = |case: &mut Case| case.runs[0] = vec![0, 1_000_000, 0, 0, 1_000_000];
    list.refused("nodes of 1 and 2 kW, the kilowatt at the second", &two, other, (9, 1, 1));
}

/// A at 1.5 m from B, C at 1 m from B, both sending there; each in zones of its own. From A, C stands at -0.5 m; from
/// C, A stands at 0.5 m.
fn half_a_metre(reference: u32, mark: u32) -> Case {
    let mut case = pair(0, vec![circuit("A", "B", 100, 1), circuit("C", "B", 100, 1)]);
    (case.settings.generation_zones, case.settings.demand_zones) = (3, 3);
    case.settings.factors[2] = 1_500;
    case.settings.reference = reference;
    case.circuits[0].voltage = 275;
    case.circuits.iter_mut().for_each(|row| row.mark = mark);
    case.nodes = vec![zoned_node("A", 1, 1, 1_000), zoned_node("B", 2, 2, 100_000), zoned_node("C", 3, 3, 1_000)];
    case.stations = vec![station("SA", "A", 60_000), station("SB", "B", 100), station("SC", "C", 60_000)];
    solved(&case)
}

/// Step 6: 499,999,999, 500,000,000, -500,000,000 and -500,000,001 nm, wider and local.
fn add_halves_of_metres(list: &mut List) {
    for (mark, system) in [(0, "wider"), (1, "local")] {
        let below = half_a_metre(1, mark);
        let run = 1 + mark as usize;
        list.accepted(format!("{system} -500,000,000 nm"), &below, |_| ());
        list.accepted(format!("{system} -500,000,001 nm"), &below, |case| case.runs[run][2] -= 1);
        list.accepted(format!("{system} -499,999,999 nm"), &below, |case| case.runs[run][2] += 1);
        list.accepted(format!("{system} -1,500,000,001 nm"), &below, |case| case.runs[run][1] -= 1);
        let above = half_a_metre(3, mark);
        list.accepted(format!("{system} 500,000,000 nm"), &above, |_| ());
        list.accepted(format!("{system} 499,999,999 nm"), &above, |case| case.runs[run][0] -= 1);
        list.accepted(format!("{system} 500,000,001 nm"), &above, |case| case.runs[run][0] += 1);
    }
}

/// A sends over so many metres to B, both in zone 1, and B without length to S in zone 2.
pub(super) fn apart(metres: u32, reference: u32, tec: [u32; 2], demand: [u32; 2]) -> Case {
    let mut case = pair(0, vec![circuit("A", "B", 100, metres), circuit("B", "S", 100, 0)]);
    (case.settings.generation_zones, case.settings.demand_zones) = (2, 2);
    case.settings.reference = reference;
    case.nodes = vec![node("A", demand[0]), node("B", demand[1]), zoned_node("S", 2, 2, 70_000)];
    case.stations = vec![station("SA", "A", tec[0]), station("SB", "B", tec[1])];
    solved(&case)
}

/// Step 7: averages of a half, just below and just above, weighted by kilowatts and not by nodes.
fn add_halves_of_averages(list: &mut List) {
    for (reference, side) in [(2, "0.5"), (1, "-0.5")] {
        let of = |tec, demand| apart(1, reference, tec, demand);
        let label = |what: &str| format!("averages around {side} m: {what}");
        list.accepted(label("halves"), &of([50_000, 50_000], [10_000, 10_000]), |_| ());
        list.accepted(label("A heavier"), &of([50_001, 50_000], [10_001, 10_000]), |_| ());
        list.accepted(label("B heavier"), &of([50_000, 50_001], [10_000, 10_001]), |_| ());
        list.accepted(label("B far heavier"), &of([50_000, 500_000], [1, 10_000]), |_| ());
        list.accepted(label("no demand in zone 1"), &of([50_000, 50_000], [0, 0]), |_| ());
    }
}

/// Step 8: C of a half, both signs, and of p's ends.
fn add_halves_of_c(list: &mut List) {
    for reference in [1, 2] {
        for metres in [1, 2, 3] {
            let far = solved(&changed(&pair(1_000, vec![circuit("GENR", "LOAD", 1, metres)]), |case| {
                case.settings.reference = reference
            }));
            list.accepted(format!("C for {metres} m from row {reference}"), &far, |_| ());
            list.accepted(format!("C for {metres} m from row {reference}, p 333"), &far, |case| case.settings.p = 333);
        }
    }
    for p in [0, 1, 250, 999, 1_000] {
        list.accepted(format!("KILN with p {p}"), &kiln(), |case| case.settings.p = p);
    }
    // Local metres stay out of demand's distance: D is behind the marked circuit.
    list.solved("TUT1 with demand at SUBD", &named_case("TUT1"), |case| case.nodes[3].demand = 1_000);
}

/// Step 9: constant 1 and factor 1,000 give a tariff of a hundredth of the metres: 50, -50 and -51 m.
fn add_halves_of_tariffs(list: &mut List) {
    let texts = [("UP_49", 49), ("UP_50", 50), ("DOWN_50", 50), ("DOWN_51", 51), ("DOWN_150", 150)];
    for mark in [1, 0] {
        let mut case = pair(0, Vec::new());
        (case.settings.constant, case.settings.wider_factor, case.settings.generation_zones) = (1, 1_000, 6);
        case.nodes = vec![node("HUB", 0)];
        case.stations.clear();
        for ((text, length), zone) in texts.into_iter().zip(2..) {
            let sends = text.starts_with("UP");
            case.nodes.push(zoned_node(text, zone, 1, if sends { 0 } else { 5_000 }));
            case.stations.push(station(text, text, if sends { 10_000 } else { 500 }));
            case.circuits.push(CircuitRow { mark, ..circuit(text, "HUB", 10, length) });
        }
        let label = if mark == 1 { "local" } else { "wider" };
        list.solved(format!("{label} tariffs around halves"), &case, |_| ());
        list.solved(format!("{label} tariffs around halves, p 1,000"), &case, |case| case.settings.p = 1_000);
        list.solved(format!("{label} tariffs around halves, p 0, revenue 0"), &case, |case| {
            (case.settings.p, case.settings.revenue) = (0, 0)
        });
    }
    // 01: 888,210 m, constant 1,007, factor 1,800 are 16,099,694.
    let mut case = pair(1_000, vec![circuit("GENR", "LOAD", 1, 0)]);
    case.circuits[0] = CircuitRow { overhead: 500_000, cable: 388_210, ..case.circuits[0].clone() };
    (case.settings.constant, case.settings.p, case.settings.reference) = (1_007, 0, 2);
    list.solved("888,210 m, constant 1,007, factor 1,800", &case, |_| ());
}

/// Step 10: rests below zero that don't divide, rests of nothing, local income.
fn add_residuals(list: &mut List) {
    let base = kiln_zoned();
    for revenue in [0, 7, 9_999_999_999] {
        for p in [0, 499, 1_000] {
            let set = |case: &mut Case| (case.settings.revenue, case.settings.p) = (revenue, p);
            list.accepted(format!("KILN with zones, revenue {revenue}, p {p}"), &base, set);
        }
    }
    let marked = |case: &mut Case| {
        case.circuits.iter_mut().for_each(|row| row.mark = 1);
        (case.settings.local_factor, case.settings.revenue) = (1_333, 0);
    };
    list.solved("KILN all marked, revenue 0: local income alone", &kiln(), marked);
    let alone = named_case("ALONE");
    for (demand, tec, revenue) in [(3, 7, 1), (6, 7, 2), (1, 1, 10_000_000_000), (7, 7, 0)] {
        let set = |case: &mut Case| {
            (case.nodes[0].demand, case.stations[0].tec, case.settings.revenue) = (demand, tec, revenue)
        };
        list.accepted(format!("ALONE with {demand} and {tec} kW, revenue {revenue}"), &alone, set);
    }
    for p in [0, 1_000] {
        let set = |case: &mut Case| {
            (case.nodes[0].demand, case.stations[0].tec) = (1, 1);
            (case.settings.revenue, case.settings.p) = (10_000_000_000, p);
        };
        list.accepted(format!("ALONE with 1 kW, the greatest revenue, p {p}: a residual of 10^16"), &alone, set);
    }
}

/// "A zone with no kilowatts": first, last, between, nearly all.
fn add_zones(list: &mut List) {
    let of = |counts: (u32, u32), generation: [u32; 3], demand: [u32; 3]| {
        move |case: &mut Case| {
            (case.settings.generation_zones, case.settings.demand_zones) = counts;
            for (place, row) in case.nodes.iter_mut().enumerate() {
                (row.generation_zone, row.demand_zone) = (generation[place], demand[place]);
            }
        }
    };
    let kiln = kiln();
    list.accepted("zone 1 of 2 without kilowatts", &kiln, of((2, 2), [2, 2, 2], [2, 2, 2]));
    list.accepted("zone 2 of 2 without kilowatts", &kiln, of((2, 2), [1, 1, 1], [1, 1, 1]));
    list.accepted("zone 2 of 3 without kilowatts", &kiln, of((3, 3), [1, 3, 2], [2, 1, 3]));
    list.accepted("zones with a node and no kilowatts", &kiln, of((3, 3), [1, 2, 3], [1, 2, 3]));
    list.accepted("32 zones, most without kilowatts", &kiln, of((32, 32), [32, 17, 1], [1, 9, 32]));
    list.accepted("32 generation zones, 1 demand zone", &kiln, of((32, 1), [31, 32, 1], [1, 1, 1]));
    list.accepted("1 generation zone, 32 demand zones", &kiln, of((1, 32), [1, 1, 1], [10, 32, 31]));
    list.accepted("zones against the order of the nodes", &kiln, of((3, 3), [3, 2, 1], [3, 2, 1]));
}

/// Nodes without circuits, without stations, with stations of 0 kW.
fn add_nodes_without(list: &mut List) {
    let kiln = kiln();
    let none = |case: &mut Case| case.stations.push(station("NONE", "NODC", 0));
    list.accepted("NODC with a station of 0 kW: no L line", &kiln, none);
    let two = |case: &mut Case| {
        none(case);
        case.stations.insert(0, station("NONE_2", "NODC", 0));
    };
    list.accepted("NODC with two stations of 0 kW: no L line", &kiln, two);
    let little = |case: &mut Case| {
        none(case);
        case.stations.push(station("ONE", "NODC", 1));
    };
    list.solved("NODC with stations of 0 and 1 kW: an L line", &kiln, little);
    list.solved("NODA with no TEC at all", &kiln, |case| case.stations[0].node = name("NODB"));
    let alone = named_case("ALONE");
    list.accepted("ALONE named by twelve letters", &alone, |case| {
        case.nodes[0].name = name("ALONE_ALONE_");
        case.stations[0].node = name("ALONE_ALONE_");
    });
    list.refused("ALONE with a potential of 1", &alone, |case| case.runs[1][0] = 1, (8, 2, 1));
    list.refused("ALONE with a local potential of -1", &alone, |case| case.runs[2][0] = -1, (8, 3, 1));
}

/// A circuit of 10^16 nm.
fn far(first: &str, second: &str) -> CircuitRow {
    CircuitRow { voltage: 275, ..circuit(first, second, 1, 500_000) }
}

/// All TEC but a little at GENR, 10^7 m local and 10^7 m wider above the reference; all demand but 1 kW 10^7 m below it.
/// A little TEC stands below and 1 kW of demand above, in zones 2.
pub(super) fn greatest_figures(p: u32, revenue: u64) -> Case {
    let loads = ["L1", "L2", "L3", "L4", "L5"];
    let mut case = pair(0, vec![CircuitRow { mark: 1, ..far("GENR", "NEAR") }, far("NEAR", "MID")]);
    case.settings.factors[2] = 20_000;
    (case.settings.constant, case.settings.wider_factor, case.settings.local_factor) = (10_000, 5_000, 5_000);
    (case.settings.generation_zones, case.settings.demand_zones) = (2, 2);
    (case.settings.reference, case.settings.p, case.settings.revenue) = (3, p, revenue);
    case.nodes = vec![zoned_node("GENR", 1, 2, 1), node("NEAR", 0), node("MID", 0)];
    case.stations.clear();
    for (place, text) in loads.into_iter().enumerate() {
        case.nodes.push(zoned_node(text, 2, 1, 20_000_000 - (place == 0) as u32));
        case.circuits.push(far("MID", text));
        case.stations.push(station(text, text, 1));
        case.stations.push(station(&format!("G{place}"), "GENR", 19_999_999));
    }
    solved(&case)
}

/// The greatest metres, tariffs, incomes and rests.
fn add_greatest(list: &mut List) {
    for p in [0, 500, 1_000] {
        for revenue in [0, 10_000_000_000] {
            list.accepted(format!("greatest figures, p {p}, revenue {revenue}"), &greatest_figures(p, revenue), |_| ());
        }
    }
}

/// 256 nodes with names of twelve letters, all with TEC, nearly all 10^7 m below the reference, wider and local; 32 and
/// 32 zones. Not solved yet.
pub(super) fn long_sheet() -> Case {
    let [genr, hub, mid] = ["GENR________", "HUB_________", "MID_________"];
    let mut case = pair(0, vec![far(genr, hub), far(hub, mid)]);
    case.settings.factors[2] = 20_000;
    (case.settings.constant, case.settings.wider_factor, case.settings.local_factor) = (10_000, 5_000, 5_000);
    (case.settings.generation_zones, case.settings.demand_zones) = (32, 32);
    (case.settings.reference, case.settings.p, case.settings.revenue) = (2, 900, 10_000_000_000);
    case.nodes = vec![node(genr, 0), node(hub, 0), node(mid, 0)];
    case.stations = vec![station("GENR", genr, 150_000), station("HUB", hub, 1), station("MID", mid, 1)];
    for place in 0..253 {
        let text = format!("LEAF_____{place:03}");
        case.nodes.push(zoned_node(&text, place % 32 + 1, place % 32 + 1, 500));
        case.circuits.push(CircuitRow { mark: 1, ..far(mid, &text) });
        case.stations.push(station(&text, &text, 1));
    }
    case
}
