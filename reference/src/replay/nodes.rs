//! 01 "What stops a case", 3: node rows.

use super::bases::{kiln, kiln_of_four, kiln_zoned, name};
use super::names::{malformed, rename_node, WELL_FORMED};
use super::List;
use crate::file::Case;

/// Zones, demands, names, repeated names.
pub fn add(list: &mut List) {
    add_zones(list);
    add_demands(list);
    add_names(list);
    add_repeated(list);
}

/// Zones 0, 1, the count and one more, at the first, the middle and the last node.
fn add_zones(list: &mut List) {
    let base = kiln_zoned();
    list.accepted("KILN with 3 and 2 zones", &base, |_| ());
    for (place, row) in [0, 1, 2].into_iter().zip(1..) {
        for zone in [1, 3] {
            if base.nodes[place].generation_zone != zone {
                let set = |case: &mut Case| case.nodes[place].generation_zone = zone;
                list.accepted(format!("node {row}: generation zone {zone} of 3"), &base, set);
            }
        }
        for zone in [1, 2] {
            if base.nodes[place].demand_zone != zone {
                let set = |case: &mut Case| case.nodes[place].demand_zone = zone;
                list.accepted(format!("node {row}: demand zone {zone} of 2"), &base, set);
            }
        }
        for zone in [0, 4, 32, u32::MAX] {
            let set = |case: &mut Case| case.nodes[place].generation_zone = zone;
            list.refused(format!("node {row}: generation zone {zone} of 3"), &base, set, (3, 0, row));
        }
        for zone in [0, 3, 32, u32::MAX] {
            let set = |case: &mut Case| case.nodes[place].demand_zone = zone;
            list.refused(format!("node {row}: demand zone {zone} of 2"), &base, set, (3, 0, row));
        }
    }
}

/// Demands at the ends of their range and past them.
fn add_demands(list: &mut List) {
    let base = kiln();
    for (place, row) in [0, 1, 2].into_iter().zip(1..) {
        let of_20_million = |case: &mut Case| {
            case.nodes[place].demand = 20_000_000;
            case.stations[0].tec = 20_000_000;
            case.stations[1].tec = 1_000_000;
        };
        list.solved(format!("node {row}: demand 20,000,000"), &base, of_20_million);
        for demand in [20_000_001, 1 << 31, u32::MAX] {
            let set = |case: &mut Case| case.nodes[place].demand = demand;
            list.refused(format!("node {row}: demand {demand}"), &base, set, (3, 0, row));
        }
    }
    list.solved("node 2: demand 0", &base, |case| case.nodes[1].demand = 0);
    list.solved("node 3: demand 0", &base, |case| case.nodes[2].demand = 0);
}

/// Names, well-formed and not. A malformed one stands everywhere the node is named, so that nothing else is wrong.
fn add_names(list: &mut List) {
    let base = kiln();
    for text in WELL_FORMED {
        list.accepted(format!("node 1: name {text}"), &base, |case| rename_node(case, 0, name(text)));
    }
    for (what, name) in malformed() {
        list.refused(format!("node 2: name {what}"), &base, |case| rename_node(case, 1, name), (3, 0, 2));
    }
    let lower = *b"noda        ";
    list.refused("node 1: name in lower case", &base, |case| rename_node(case, 0, lower), (3, 0, 1));
    list.refused("node 3: name in lower case", &base, |case| rename_node(case, 2, lower), (3, 0, 3));
    list.refused("node 2: name in lower case, in its row alone", &base, |case| case.nodes[1].name = lower, (3, 0, 2));
    list.refused("node 2: name well-formed, in its row alone", &base, |case| case.nodes[1].name = name("X"), (4, 0, 1));
    // Names that differ in one letter only, or of which one begins another.
    let nearly = [
        ("in their last letter", "NODANODANOD1", "NODANODANOD2"),
        ("in their first letter", "1ODANODANODA", "2ODANODANODA"),
        ("in their length", "NODANODANODA", "NODANODANOD"),
        ("in one letter, one of them short", "N", "NO"),
    ];
    for (where_to, first, second) in nearly {
        let rename = |case: &mut Case| {
            rename_node(case, 0, name(first));
            rename_node(case, 1, name(second));
        };
        list.accepted(format!("nodes whose names differ {where_to}"), &base, rename);
    }
}

/// Repeated names: the later row counts, the lowest of all faults.
fn add_repeated(list: &mut List) {
    let base = kiln_of_four();
    list.accepted("KILN with a node and a station more, of nothing", &base, |_| ());
    for (earlier, later) in [(0, 1), (0, 2), (1, 2), (0, 3), (2, 3)] {
        let repeat = |case: &mut Case| case.nodes[later].name = case.nodes[earlier].name;
        let label = format!("node {}: the name of node {}", later + 1, earlier + 1);
        list.refused(label, &base, repeat, (3, 0, later as u32 + 1));
    }
    type Change = fn(&mut Case);
    let pairs: [(&str, Change, u32); 6] = [
        (
            "a repeated name before a malformed row",
            |case| (case.nodes[1].name, case.nodes[2].generation_zone) = (name("NODA"), 0),
            2,
        ),
        (
            "a malformed row before a repeated name",
            |case| (case.nodes[1].generation_zone, case.nodes[2].name) = (0, name("NODA")),
            2,
        ),
        (
            "a malformed name before a repeated one",
            |case| (case.nodes[2].name, case.nodes[3].name) = (*b"nodc        ", name("NODB")),
            3,
        ),
        (
            "a repeated name before a malformed one",
            |case| (case.nodes[2].name, case.nodes[3].name) = (name("NODB"), *b"nodd        "),
            3,
        ),
        (
            "two repeated names, the later of the first pair last",
            |case| (case.nodes[2].name, case.nodes[3].name) = (name("NODB"), name("NODA")),
            3,
        ),
        (
            "two equal malformed names",
            |case| (case.nodes[1].name, case.nodes[2].name) = (*b"nod         ", *b"nod         "),
            2,
        ),
    ];
    for (label, change, row) in pairs {
        list.refused(format!("nodes: {label}"), &base, change, (3, 0, row));
    }
    let one_name = |case: &mut Case| case.nodes.iter_mut().for_each(|row| row.name = name("NODA"));
    list.refused("nodes: one name in all rows", &base, one_name, (3, 0, 2));
    let first_and_last = |case: &mut Case| (case.nodes[0].demand_zone, case.nodes[3].demand_zone) = (0, 0);
    list.refused("nodes: the first and the last out of range", &base, first_and_last, (3, 0, 1));
    list.refused("nodes: the last out of range", &base, |case| case.nodes[3].demand = 20_000_001, (3, 0, 4));
}
