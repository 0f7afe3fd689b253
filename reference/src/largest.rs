//! The cases of the greatest counts: 256 nodes, 512 circuits or 480 in version 2 or 320 in edition 2, 512 stations, 32 and 32 zones, by a
//! fixed rule.

use crate::file::{padded, Case, CircuitRow, Edition, NodeRow, Settings, StationRow, Version};
use crate::solver::solved;

/// Rows and columns of the ring of rings.
const SIDE: u32 = 16;

/// LARGEST: a grid of 16 by 16 nodes whose rows and columns close into rings, so that each node has one circuit to
/// the east and one to the south: 512. Two stations a node. Total TEC is 100,000,000 kW, the greatest allowed.
pub fn largest() -> Case {
    let case = Case {
        version: Version::One,
        edition: Edition::One,
        settings: settings(),
        nodes: places().map(|(row, column)| node(row, column)).collect(),
        circuits: places().flat_map(|(row, column)| [east(row, column), south(row, column)]).collect(),
        stations: places().flat_map(|(row, column)| [0, 1].map(|second| station(row, column, second))).collect(),
        runs: Default::default(),
    };
    solved(&case).0
}

/// LARGEST_2, of version 2 (02, CR 3): LARGEST without the circuits that close its rings, which are 32, and with factors
/// on most of the 480 others. 63,360 bytes.
pub fn largest_of_version_2() -> Case {
    solved(&Case { version: Version::Two, circuits: open_grid(|_| true), ..largest() }).0
}

/// The largest of edition 2 (02, CR 5): LARGEST_2 with 80 of its circuits to the south, those of every third column but the
/// last and five of the last. 61,072 bytes.
pub fn largest_of_edition_2() -> Case {
    let circuits = open_grid(|(row, column)| column % 3 == 0 && (column < SIDE - 1 || row < 5));
    let case = Case { version: Version::Two, circuits, ..largest() };
    solved(&case.in_edition_2().expect("320 circuits")).0
}

/// The circuits of the grid without those that close its rings, to the south only from the places asked for, with factors by
/// their turn.
fn open_grid(south_from: impl Fn((u32, u32)) -> bool) -> Vec<CircuitRow> {
    let last = SIDE - 1;
    let east = |(row, column)| (column < last).then(|| east(row, column));
    let south = |(row, column)| (row < last && south_from((row, column))).then(|| south(row, column));
    let circuits = places().flat_map(|place| [east(place), south(place)]).flatten();
    circuits.zip(0..).map(|(row, turn)| with_factor(row, turn)).collect()
}

/// A circuit with a factor by its turn: by voltage, its own, its own at 320 or at 525.
fn with_factor(row: CircuitRow, turn: u32) -> CircuitRow {
    let own = 1_000 + 97 * turn % 29_001;
    match turn % 5 {
        0 => row,
        1 => CircuitRow { voltage: 320, factor: own, ..row },
        2 => CircuitRow { voltage: 525, factor: own, ..row },
        _ => CircuitRow { factor: own, ..row },
    }
}

/// Rows and columns in table order.
fn places() -> impl Iterator<Item = (u32, u32)> {
    (0..SIDE).flat_map(|row| (0..SIDE).map(move |column| (row, column)))
}

/// Settings with every factor another, and the reference in the middle.
fn settings() -> Settings {
    Settings {
        generation_zones: 32,
        demand_zones: 32,
        p: 730,
        constant: 1_499,
        wider_factor: 1_800,
        local_factor: 1_250,
        factors: [1_000, 10_200, 1_140, 11_450, 2_800, 22_580],
        reference: SIDE * 8 + 9,
        zero: 0,
        revenue: 2_939_300_000,
    }
}

/// The twelve letters of a node's name; rows and columns beyond the last begin again.
fn name(row: u32, column: u32) -> [u8; 12] {
    padded(format!("ROW_{:02}_COL{:02}", row % SIDE, column % SIDE).as_bytes())
}

/// Number of a place from 0 to 255, in table order.
fn number(row: u32, column: u32) -> u32 {
    SIDE * row + column
}

/// Demand grows to the south and the east, with some nodes left without.
fn node(row: u32, column: u32) -> NodeRow {
    let number = number(row, column);
    let demand = if number % 7 == 3 { 0 } else { 60_000 + 17_000 * row + 9_000 * column + 1_237 * (number % 11) };
    NodeRow {
        name: name(row, column),
        generation_zone: number / 8 + 1,
        demand_zone: (5 * row + column) % 32 + 1,
        demand,
    }
}

/// A circuit of a place: x, voltage and lengths by its number; every tenth marked, every thirteenth without length.
fn circuit(row: u32, column: u32, to: [u8; 12], kind: u32) -> CircuitRow {
    let turn = 2 * number(row, column) + kind;
    let length = |length: u32| if turn % 13 == 5 { 0 } else { length };
    CircuitRow {
        first: name(row, column),
        second: to,
        voltage: [400, 275, 132, 400][(turn % 4) as usize],
        x: 40 + 61 * (turn % 17),
        overhead: length(3_000 + 771 * (turn % 37)),
        cable: length(if turn % 9 == 2 { 450 + 31 * (turn % 5) } else { 0 }),
        mark: (turn % 10 == 7) as u32,
        factor: 0,
    }
}

/// The circuit to the next place of the row.
fn east(row: u32, column: u32) -> CircuitRow {
    circuit(row, column, name(row, column + 1), 0)
}

/// The circuit to the next place of the column.
fn south(row: u32, column: u32) -> CircuitRow {
    circuit(row, column, name(row + 1, column), 1)
}

/// Two stations a place: greater in the north, none at every fifth place; plant types in turn. The very first takes
/// what is left of the total.
fn station(row: u32, column: u32, second: u32) -> StationRow {
    let turn = 2 * number(row, column) + second;
    StationRow {
        identifier: padded(format!("STATION_{turn:04}").as_bytes()),
        node: name(row, column),
        plant: turn % 7 + 1,
        tec: if turn == 0 { first_tec() } else { other_tec(turn) },
    }
}

/// TEC of every station but the first.
fn other_tec(turn: u32) -> u32 {
    let row = turn / (2 * SIDE);
    if (turn / 2) % 5 == 4 {
        0
    } else {
        90_000 + 19_000 * (SIDE - 1 - row) + 1_009 * (turn % 23)
    }
}

/// What the other stations leave of 100,000,000 kW.
fn first_tec() -> u32 {
    100_000_000 - (1..2 * SIDE * SIDE).map(other_tec).sum::<u32>()
}
