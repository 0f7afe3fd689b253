//! 01 "What stops a case", 6 and 7: reach and totals.

use super::bases::{
    circuit, every_second_turned, kiln, kiln_of_four, name, named_case, node, pair, station, turned, zeros,
};
use super::{solved, List};
use crate::file::Case;

/// Reach, then totals.
pub fn add(list: &mut List) {
    add_islands(list);
    add_paths(list);
    add_totals(list);
    add_greatest_totals(list);
    add_totals_past_32_bits(list);
}

/// Nodes out of reach: the lowest counts.
fn add_islands(list: &mut List) {
    let base = kiln_of_four();
    let only = |rows: &'static [(&str, &str)]| {
        move |case: &mut Case| {
            case.circuits = rows.iter().map(|(first, second)| circuit(first, second, 100, 1_000)).collect();
            case.runs = zeros(case);
        }
    };
    // The reference is row 3.
    list.refused("no circuits, reference row 3", &base, only(&[]), (6, 0, 1));
    let first = |case: &mut Case| {
        only(&[])(case);
        case.settings.reference = 1;
    };
    list.refused("no circuits, reference row 1", &base, first, (6, 0, 2));
    list.refused("A-B and C-D", &base, only(&[("NODA", "NODB"), ("NODC", "NODD")]), (6, 0, 1));
    list.refused("A-C and B-D", &base, only(&[("NODA", "NODC"), ("NODB", "NODD")]), (6, 0, 2));
    list.refused("A-C, the others alone", &base, only(&[("NODA", "NODC")]), (6, 0, 2));
    list.refused("A-C-B, D alone", &base, only(&[("NODA", "NODC"), ("NODC", "NODB")]), (6, 0, 4));
    list.refused("B-C-D, A alone", &base, only(&[("NODB", "NODC"), ("NODD", "NODC")]), (6, 0, 1));
    list.refused("A-C twice and back", &base, only(&[("NODA", "NODC"), ("NODA", "NODC"), ("NODC", "NODA")]), (6, 0, 2));
    list.refused(
        "a loop A-B-D without C",
        &base,
        only(&[("NODA", "NODB"), ("NODB", "NODD"), ("NODD", "NODA")]),
        (6, 0, 1),
    );
    let alone = |case: &mut Case| {
        case.nodes.push(node("MORE", 0));
        case.own_runs_mut().iter_mut().for_each(|run| run.push(0));
    };
    list.refused("ALONE with a second node and no circuits", &named_case("ALONE"), alone, (6, 0, 2));
}

/// A path of so many nodes with demand at its last and a station at its first, its circuits put in any order and turned
/// any way by the caller; the reference is its first node.
fn path(nodes: usize) -> Case {
    let text = |place: usize| format!("P{place}");
    let mut case = pair(1_000, Vec::new());
    case.nodes = (0..nodes).map(|place| node(&text(place), if place + 1 == nodes { 1_000 } else { 0 })).collect();
    case.circuits = (1..nodes).map(|place| circuit(&text(place - 1), &text(place), 10, 10)).collect();
    case.stations = vec![station("ST", "P0", 1_000)];
    case
}

/// Paths that are found only by walking backwards, only at the end of the table, or not at all.
fn add_paths(list: &mut List) {
    list.solved("a path of 12", &path(12), |_| ());
    list.solved("a path of 12, reached only backwards", &path(12), turned);
    list.solved("a path of 12, its circuits from the far end", &path(12), |case| case.circuits.reverse());
    let both = |case: &mut Case| {
        turned(case);
        case.circuits.reverse();
    };
    list.solved("a path of 12, from the far end and backwards", &path(12), both);
    let last = |case: &mut Case| {
        case.circuits.reverse();
        case.settings.reference = 12;
    };
    list.solved("a path of 12, the reference last", &path(12), last);
    list.solved("a path of 12, every second circuit turned", &path(12), every_second_turned);
    list.solved("a path of 12, all marked", &path(12), |case| case.circuits.iter_mut().for_each(|row| row.mark = 1));
    list.solved("a path of 12 without length", &path(12), |case| {
        case.circuits.iter_mut().for_each(|row| row.overhead = 0)
    });
    // Breaks, also at the places where 64 nodes end and at the greatest row.
    for (nodes, broken) in [(12, 2), (12, 7), (12, 12), (65, 64), (65, 65), (130, 129), (256, 256)] {
        let mut case = path(nodes);
        case.circuits.remove(broken - 2);
        case.circuits.reverse();
        case.runs = zeros(&case);
        list.refused(
            format!("a path of {nodes} without its circuit to node {broken}"),
            &case,
            |_| (),
            (6, 0, broken as u32),
        );
    }
}

/// Totals of nothing, equal totals, TEC one below.
fn add_totals(list: &mut List) {
    let base = kiln();
    let seven = (7, 0, 0);
    list.refused("no demand", &base, |case| case.nodes.iter_mut().for_each(|row| row.demand = 0), seven);
    list.refused("no TEC", &base, |case| case.stations.iter_mut().for_each(|row| row.tec = 0), seven);
    list.refused("no stations", &base, |case| case.stations.clear(), seven);
    let neither = |case: &mut Case| {
        case.nodes.iter_mut().for_each(|row| row.demand = 0);
        case.stations.clear();
    };
    list.refused("no demand, no stations", &base, neither, seven);
    let tec = |kw: u32| move |case: &mut Case| (case.stations[0].tec, case.stations[1].tec) = (100_000, kw - 100_000);
    list.solved("TEC equal to demand", &base, tec(150_000));
    list.solved("TEC one above demand", &base, tec(150_001));
    list.refused("TEC one below demand", &base, tec(149_999), seven);
    let alone = named_case("ALONE");
    let of =
        |demand: u32, tec: u32| move |case: &mut Case| (case.nodes[0].demand, case.stations[0].tec) = (demand, tec);
    list.accepted("ALONE with 1 kW and 1 kW", &alone, of(1, 1));
    list.accepted("ALONE with 1 kW of demand and 20,000,000 of TEC", &alone, of(1, 20_000_000));
    list.refused("ALONE with 1 kW of demand and none of TEC", &alone, of(1, 0), seven);
    list.refused("ALONE with 1 kW of TEC and none of demand", &alone, of(0, 1), seven);
    list.refused("ALONE with 2 kW of demand and 1 of TEC", &alone, of(2, 1), seven);
    list.refused("ALONE without stations", &alone, |case| case.stations.clear(), seven);
}

/// A hub with five stations and demand at five nodes around it, 20,000,000 kW each: both totals 100,000,000.
pub(super) fn greatest_totals() -> Case {
    let texts = ["L1", "L2", "L3", "L4", "L5"];
    let mut case = pair(20_000_000, Vec::new());
    case.nodes = texts.map(|text| node(text, 20_000_000)).into();
    case.nodes.insert(0, node("GENR", 0));
    case.circuits = texts.map(|text| circuit("GENR", text, 10, 1_000)).into();
    case.stations = texts.map(|text| station(&format!("ST_{text}"), "GENR", 20_000_000)).into();
    solved(&case)
}

/// Totals of exactly 100,000,000 and one more.
fn add_greatest_totals(list: &mut List) {
    let base = greatest_totals();
    let seven = (7, 0, 0);
    let one_more = |case: &mut Case| case.stations.push(station("ONE", "GENR", 1));
    list.accepted("totals of 100,000,000", &base, |_| ());
    list.solved("TEC 100,000,000, demand one less", &base, |case| case.nodes[1].demand -= 1);
    list.solved("TEC 100,000,000, demand 20,000,000", &base, |case| {
        case.nodes[1..5].iter_mut().for_each(|row| row.demand = 0)
    });
    list.refused("TEC 100,000,001", &base, one_more, seven);
    list.refused("TEC 100,000,001, demand less", &base, |case| (one_more(case), case.nodes[1].demand = 1).1, seven);
    list.refused("demand 100,000,001", &base, |case| case.nodes[0].demand = 1, seven);
    list.refused("demand and TEC 100,000,001", &base, |case| (one_more(case), case.nodes[0].demand = 1).1, seven);
    list.refused("TEC 99,999,999, demand 100,000,000", &base, |case| case.stations[4].tec -= 1, seven);
}

/// Totals that are lawful in their low 32 bits.
fn add_totals_past_32_bits(list: &mut List) {
    let seven = (7, 0, 0);
    // KILN's TEC and 2^32 more: 214 stations of the greatest TEC and what is left.
    let full = |case: &mut Case, node: &str, more: u64| {
        for number in 0..more.div_ceil(20_000_000) {
            let tec = (more - 20_000_000 * number).min(20_000_000) as u32;
            case.stations.push(station(&format!("M{number}"), node, tec));
        }
    };
    list.refused("TEC 2^32 more than KILN's", &kiln(), |case| full(case, "NODA", 1 << 32), seven);
    let greatest = |case: &mut Case| {
        case.stations = (0..512).map(|number| station(&format!("M{number}"), "NODB", 20_000_000)).collect();
    };
    list.refused("TEC 10,240,000,000", &kiln(), greatest, seven);
    // A star of 216 nodes whose demand is 2^32 and 50,000,000 kW.
    let mut star = pair(0, Vec::new());
    let demand = (1u64 << 32) + 50_000_000;
    let kw = |place: u64| (demand.saturating_sub(20_000_000 * (place - 1))).min(20_000_000) as u32;
    star.nodes = (1..=demand.div_ceil(20_000_000)).map(|place| node(&format!("N{place}"), kw(place))).collect();
    star.nodes.insert(0, node("GENR", 0));
    star.circuits = star.nodes[1..].iter().map(|row| circuit_to(row.name)).collect();
    star.stations = (0..5).map(|number| station(&format!("ST{number}"), "GENR", 20_000_000)).collect();
    star.runs = zeros(&star);
    list.refused("demand 2^32 and 50,000,000, TEC 100,000,000", &star, |_| (), seven);
}

/// A circuit of no length from GENR.
fn circuit_to(second: [u8; 12]) -> crate::file::CircuitRow {
    crate::file::CircuitRow { first: name("GENR"), second, ..circuit("", "", 1, 0) }
}
