//! 01 "What stops a case", 5: station rows.

use super::bases::{kiln, kiln_of_four, name, station};
use super::names::{malformed, WELL_FORMED};
use super::List;
use crate::file::Case;

/// Names, numbers, repeated identifiers.
pub fn add(list: &mut List) {
    add_names(list);
    add_numbers(list);
    add_repeated(list);
}

/// Identifiers and nodes, well-formed and not, known and not.
fn add_names(list: &mut List) {
    let base = kiln();
    for text in WELL_FORMED {
        let set = |case: &mut Case| case.stations[1].identifier = name(text);
        list.accepted(format!("station 2: identifier {text}"), &base, set);
    }
    for (what, name) in malformed() {
        let set = |case: &mut Case| case.stations[1].identifier = name;
        list.refused(format!("station 2: identifier {what}"), &base, set, (5, 0, 2));
    }
    for (what, name) in malformed().into_iter().take(7) {
        list.refused(format!("station 2: node {what}"), &base, |case| case.stations[1].node = name, (5, 0, 2));
    }
    for (what, text) in [
        ("unknown", "NODX"),
        ("a station's identifier", "GEN_1"),
        ("its own identifier", "GEN_2"),
        ("the beginning of a name", "NOD"),
        ("a name and a letter", "NODBB"),
    ] {
        list.refused(format!("station 2: node {what}"), &base, |case| case.stations[1].node = name(text), (5, 0, 2));
    }
    list.refused("station 1: node unknown", &base, |case| case.stations[0].node = name("NODX"), (5, 0, 1));
    list.accepted("station 2: a node's name", &base, |case| case.stations[1].identifier = name("NODA"));
    list.accepted("station 2: its node's name", &base, |case| case.stations[1].identifier = name("NODB"));
    list.solved("station 2 at node 1", &base, |case| case.stations[1].node = name("NODA"));
    list.solved("station 2 at the reference", &base, |case| case.stations[1].node = name("NODC"));
}

/// Plant types and TEC.
fn add_numbers(list: &mut List) {
    let base = kiln();
    for plant in 1..=6 {
        list.accepted(format!("station 2: plant type {plant}"), &base, |case| case.stations[1].plant = plant);
    }
    for plant in [0, 8, 256, u32::MAX] {
        list.refused(format!("station 2: plant type {plant}"), &base, |case| case.stations[1].plant = plant, (5, 0, 2));
    }
    list.solved("station 2: TEC 0", &base, |case| case.stations[1].tec = 0);
    list.solved("station 2: TEC 20,000,000", &base, |case| case.stations[1].tec = 20_000_000);
    list.refused(
        "station 2: TEC 20,000,000, solved for less",
        &base,
        |case| case.stations[1].tec = 20_000_000,
        (9, 1, 1),
    );
    for tec in [20_000_001, 1 << 31, u32::MAX] {
        list.refused(format!("station 1: TEC {tec}"), &base, |case| case.stations[0].tec = tec, (5, 0, 1));
    }
    list.refused("station 2: TEC 20,000,001", &base, |case| case.stations[1].tec = 20_000_001, (5, 0, 2));
}

/// Repeated identifiers: the later row counts, the lowest of all faults.
fn add_repeated(list: &mut List) {
    let base = kiln_of_four();
    for (earlier, later) in [(0, 1), (0, 2), (1, 2)] {
        let repeat = |case: &mut Case| case.stations[later].identifier = case.stations[earlier].identifier;
        let label = format!("station {}: the identifier of station {}", later + 1, earlier + 1);
        list.refused(label, &base, repeat, (5, 0, later as u32 + 1));
    }
    let pair = |case: &mut Case| (case.stations[1].identifier, case.stations[2].plant) = (name("GEN_1"), 0);
    list.refused("stations: a repeated identifier before a malformed row", &base, pair, (5, 0, 2));
    let pair = |case: &mut Case| (case.stations[1].plant, case.stations[2].identifier) = (0, name("GEN_1"));
    list.refused("stations: a malformed row before a repeated identifier", &base, pair, (5, 0, 2));
    let pair = |case: &mut Case| {
        (case.stations[1].identifier, case.stations[2].identifier) = (*b"gen         ", *b"gen         ")
    };
    list.refused("stations: two equal malformed identifiers", &base, pair, (5, 0, 2));
    let pair = |case: &mut Case| (case.stations[1].node, case.stations[2].identifier) = (name("NODX"), name("GEN_1"));
    list.refused("stations: an unknown node before a repeated identifier", &base, pair, (5, 0, 2));
    let pair = |case: &mut Case| {
        case.stations.push(station("GEN_1", "NODA", 0));
        case.stations[2].identifier = name("GEN_2");
    };
    list.refused("stations: two repeated identifiers, the later of the first pair last", &base, pair, (5, 0, 3));
    let all = |case: &mut Case| case.stations.iter_mut().for_each(|row| row.identifier = name("GEN_1"));
    list.refused("stations: one identifier in all rows", &base, all, (5, 0, 2));
    list.refused("stations: the last out of range", &base, |case| case.stations[2].tec = 20_000_001, (5, 0, 3));
    let nearly = |case: &mut Case| {
        case.stations[0].identifier = name("STATION_STA1");
        case.stations[1].identifier = name("STATION_STA2");
        case.stations[2].identifier = name("STATION_STA");
    };
    list.accepted("stations whose identifiers differ in their last letter", &base, nearly);
}
