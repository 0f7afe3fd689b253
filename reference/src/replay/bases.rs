//! Cases that others are made from by a change, and short ways to write rows.

use super::{changed, solved};
use crate::file::{padded, Case, CircuitRow, Edition, Name, NodeRow, Settings, StationRow, Version, RUNS};
use crate::text;

/// A text of the folder of texts, by its name.
macro_rules! text_named {
    ($name:literal) => {
        ($name, include_str!(concat!("../../../cases/", $name, ".txt")))
    };
}

/// The folder of texts, without those named below.
pub const TEXTS: [(&str, &str); 10] = [
    text_named!("KILN"),
    text_named!("CUSC1421"),
    text_named!("TUT1"),
    text_named!("TUT1_P5"),
    text_named!("TUT1_P150"),
    text_named!("TUT1_P200"),
    text_named!("TUT2_275"),
    text_named!("CUSC1422"),
    text_named!("TUT8_TARIFF"),
    text_named!("ALONE"),
];

/// The texts of the folder with interconnectors (02, CR 1).
pub const LINK_TEXTS: [(&str, &str); 2] = [text_named!("TUT1_IC"), text_named!("LINKS")];

/// The texts of the folder of version 2 (02, CR 3).
pub const VERSION_TEXTS: [(&str, &str); 2] = [text_named!("SUBSEA"), text_named!("KILN_2")];

/// The texts of the folder of edition 2 (02, CR 5).
pub const EDITION_TEXTS: [(&str, &str); 3] = [text_named!("TUT3_E2"), text_named!("TUT3_NOPEAK"), text_named!("SEVEN")];

/// The texts of the folder that stand beside TUT1 and TARN (02, CR 12). Their solutions aren't this solver's.
pub const DIRECTION_TEXTS: [(&str, &str); 2] = [text_named!("TUT1_OTHER"), text_named!("TARN_METRE")];

/// More texts of the folder whose solutions aren't this solver's.
const CHOSEN_TEXTS: [(&str, &str); 2] = [text_named!("DALE"), text_named!("TARN")];

/// The case of a text of the folder.
pub fn named_case(name: &str) -> Case {
    let lists = [&TEXTS[..], &LINK_TEXTS, &VERSION_TEXTS, &EDITION_TEXTS, &DIRECTION_TEXTS, &CHOSEN_TEXTS];
    let mut texts = lists.into_iter().flatten();
    let (_, text) = texts.find(|(known, _)| *known == name).expect("a text of the folder");
    text::parse(text.as_bytes()).expect("a text without faults").case
}

/// KILN in version 2.
pub fn kiln_2() -> Case {
    named_case("KILN_2")
}

/// 02, CR 3: a case in version 2, every factor 0.
pub fn in_version_2(case: &Case) -> Case {
    case.in_version(Version::Two).expect("at most 480 circuits")
}

/// 01's own case.
pub fn kiln() -> Case {
    named_case("KILN")
}

/// KILN with A-C marked. The solutions of all three systems are whole numbers, none of them all zero.
pub fn kiln_marked() -> Case {
    solved(&changed(&kiln(), |case| case.circuits[2].mark = 1))
}

/// KILN with three generation zones, one a node, and two demand zones: NODB in the second.
pub fn kiln_zoned() -> Case {
    changed(&kiln(), |case| {
        (case.settings.generation_zones, case.settings.demand_zones) = (3, 2);
        (case.nodes[1].generation_zone, case.nodes[1].demand_zone) = (2, 2);
        case.nodes[2].generation_zone = 3;
    })
}

/// KILN with a fourth node of 300 kW demand behind a circuit without length.
pub fn kiln_with_a_spur() -> Case {
    solved(&changed(&kiln(), |case| {
        case.nodes.push(node("NODD", 300));
        case.circuits.push(circuit("NODC", "NODD", 1, 0));
        case.stations[0].tec = 200_400;
        case.stations[1].tec = 100_200;
    }))
}

/// KILN with one more node and one more station at it, of no demand and no TEC, and solutions of zeros there: for rows.
pub fn kiln_of_four() -> Case {
    changed(&kiln(), |case| {
        case.nodes.push(node("NODD", 0));
        case.circuits.push(circuit("NODC", "NODD", 1, 0));
        case.stations.push(station("GEN_3", "NODD", 0));
        for run in case.own_runs_mut() {
            run.insert(3, 0);
            run.push(0);
        }
    })
}

/// Five nodes with lengths of all six kinds, overhead and cable at each voltage, one circuit marked, reference row 3.
pub fn all_kinds() -> Case {
    let length = |voltage, overhead, cable, row: CircuitRow| CircuitRow { voltage, overhead, cable, ..row };
    let places = [("HUB", 1, 1, 70_000), ("WEST", 2, 1, 0), ("NORTH", 3, 2, 5_000), ("EAST", 4, 2, 12_000)];
    let mut nodes: Vec<NodeRow> = places.map(|(text, g, d, demand)| zoned_node(text, g, d, demand)).into();
    nodes.push(zoned_node("FAR_EAST", 4, 1, 1_000));
    let marked = CircuitRow { mark: 1, ..circuit("FAR_EAST", "EAST", 30, 0) };
    solved(&Case {
        version: Version::One,
        edition: Edition::One,
        settings: Settings {
            generation_zones: 4,
            demand_zones: 2,
            p: 730,
            constant: 1_234,
            wider_factor: 1_800,
            local_factor: 1_150,
            factors: [1_000, 10_200, 1_140, 11_450, 2_800, 22_580],
            reference: 3,
            zero: 0,
            revenue: 7_654_321,
        },
        nodes,
        circuits: vec![
            length(400, 10_000, 2_000, circuit("WEST", "HUB", 100, 0)),
            length(275, 8_000, 1_000, circuit("NORTH", "HUB", 150, 0)),
            length(132, 5_000, 500, circuit("HUB", "EAST", 200, 0)),
            length(400, 17_000, 0, circuit("NORTH", "WEST", 250, 0)),
            length(132, 700, 70, marked),
        ],
        stations: vec![
            station("WIND", "WEST", 50_001),
            station("WATER", "NORTH", 40_000),
            station("SUN", "FAR_EAST", 20_000),
        ],
        runs: Default::default(),
    })
}

/// Three nodes in a line, GENR to MID unmarked and MID to LOAD marked, each 1,000 m; 1,000 kW; reference LOAD. A change
/// of GENR's potential is a miss of the first circuit alone.
pub fn line() -> Case {
    let mut case = pair(1_000, vec![circuit("GENR", "MID", 100, 1_000), circuit("MID", "LOAD", 100, 1_000)]);
    case.nodes.insert(1, node("MID", 0));
    case.circuits[1].mark = 1;
    case.settings.reference = 3;
    solved(&case)
}

/// Two nodes: a station of so many kW at GENR, the reference, all demand at LOAD; solutions all zero.
pub fn pair(kw: u32, circuits: Vec<CircuitRow>) -> Case {
    let case = Case {
        version: Version::One,
        edition: Edition::One,
        settings: Settings { reference: 1, ..kiln().settings },
        nodes: vec![node("GENR", 0), node("LOAD", kw)],
        circuits,
        stations: vec![station("ST", "GENR", kw)],
        runs: Default::default(),
    };
    Case { runs: zeros(&case), ..case }
}

/// UP sends to HUB, the reference, and HUB to DOWN, with so much TEC and demand at UP and DOWN, each in zones of its own.
/// On each way two circuits side by side, of which one has so many metres, share them: UP stands half of them above HUB,
/// and DOWN half of them below.
pub fn both_ways(metres: u32, tec: [u32; 2], demand: [u32; 2]) -> Case {
    let way = |first, second| [circuit(first, second, 1, metres), circuit(first, second, 1, 0)];
    let mut case = pair(0, [way("UP", "HUB"), way("HUB", "DOWN")].concat());
    (case.settings.generation_zones, case.settings.demand_zones, case.settings.reference) = (2, 2, 2);
    case.nodes = vec![zoned_node("UP", 1, 1, demand[0]), node("HUB", 0), zoned_node("DOWN", 2, 2, demand[1])];
    case.stations = vec![station("GEN_1", "UP", tec[0]), station("GEN_2", "DOWN", tec[1])];
    solved(&case)
}

/// `both_ways` with UP's TEC and DOWN's demand alike, and UP's demand and DOWN's TEC: with p 500 C is 0, and the case is
/// its own mirror.
pub fn balanced(metres: u32) -> Case {
    both_ways(metres, [30_000, 10_000], [10_000, 30_000])
}

/// A case in a mirror: TEC and demand exchanged at every node, and with them zones and shares; every flow and potential
/// turned round. Solutions of the one are solutions of the other where total TEC is total demand.
pub fn mirrored(case: &Case) -> Case {
    let tec = |row: &NodeRow| case.stations.iter().filter(|at| at.node == row.name).map(|at| at.tec).sum();
    let node = |row: &NodeRow| NodeRow {
        name: row.name,
        generation_zone: row.demand_zone,
        demand_zone: row.generation_zone,
        demand: tec(row),
    };
    let station = |row: &NodeRow| StationRow { identifier: row.name, node: row.name, plant: 7, tec: row.demand };
    Case {
        version: case.version,
        edition: case.edition,
        settings: Settings {
            generation_zones: case.settings.demand_zones,
            demand_zones: case.settings.generation_zones,
            p: 1_000 - case.settings.p,
            ..case.settings.clone()
        },
        nodes: case.nodes.iter().map(node).collect(),
        circuits: case.circuits.clone(),
        stations: case.nodes.iter().filter(|row| row.demand > 0).map(station).collect(),
        runs: case.runs.clone().map(|run| run.iter().map(|number| -number).collect()),
    }
}

/// A well-formed name.
pub fn name(text: &str) -> Name {
    padded(text.as_bytes())
}

/// A node of zone 1 and 1.
pub fn node(text: &str, demand: u32) -> NodeRow {
    zoned_node(text, 1, 1, demand)
}

/// A node of a generation and a demand zone.
pub fn zoned_node(text: &str, generation_zone: u32, demand_zone: u32, demand: u32) -> NodeRow {
    NodeRow { name: name(text), generation_zone, demand_zone, demand }
}

/// An unmarked 400 kV overhead circuit.
pub fn circuit(first: &str, second: &str, x: u32, overhead: u32) -> CircuitRow {
    let (first, second) = (name(first), name(second));
    CircuitRow { first, second, voltage: 400, x, overhead, cable: 0, mark: 0, factor: 0 }
}

/// A station of type 7.
pub fn station(identifier: &str, node: &str, tec: u32) -> StationRow {
    StationRow { identifier: name(identifier), node: name(node), plant: 7, tec }
}

/// Every station divided, its TEC shared as said, under names by their turns.
pub fn divide(case: &mut Case, share: fn(u32) -> Vec<u32>) {
    for row in std::mem::take(&mut case.stations) {
        for (turn, tec) in share(row.tec).into_iter().enumerate() {
            let identifier = name(&format!("P{}_{turn}", case.stations.len()));
            case.stations.push(StationRow { identifier, tec, ..row.clone() });
        }
    }
}

/// Every circuit with its ends turned round: the same network.
pub fn turned(case: &mut Case) {
    case.circuits.iter_mut().for_each(turn);
}

/// Every second circuit, from the first on, with its ends turned round.
pub fn every_second_turned(case: &mut Case) {
    case.circuits.iter_mut().step_by(2).for_each(turn);
}

/// A circuit's ends turned round.
fn turn(row: &mut CircuitRow) {
    std::mem::swap(&mut row.first, &mut row.second);
}

/// Numbers of zero for as many rows as a case has.
pub fn zeros(case: &Case) -> [Vec<i64>; RUNS] {
    case.zeros()
}
