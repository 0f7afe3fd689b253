//! Nodes behind one circuit, or two side by side, whose flows stand near the edges of the bands.

use crate::bands::Flows;
use crate::networks::{most_circuits, total_demand, total_tec, HALVES, IN_DOUBT, LEAST, ONE_KILOWATT, TEC_EQUAL};
use reference::file::{padded, Case, CircuitRow, Edition, Name, NodeRow, StationRow};
use reference::random::Chance;

/// How the spurs' names begin.
const SPUR: &[u8] = b"SPUR";

pub fn is_spur(name: &Name) -> bool {
    name.starts_with(SPUR)
}

/// 01 step 4: flows towards a spur in kW, on each of its circuits, at the edges of the bands.
const FLOWS: [i64; 4] = [200, 401, 201, 400];

/// 02, CR 5: flows away from a spur in kW, on each of its circuits, year round and at peak. A spur has generation that does not run at
/// peak, so the second is its demand's and the first not below it. These are accepted unmarked, next to an edge: first of the bands of
/// the background, then of those of the direction.
const ACCEPTED: [(i64, i64); 12] = [
    (400, 0),
    (801, 0),
    (600, -200),
    (550, -150),
    (1_001, -200),
    (801, -401),
    (1_202, -401),
    (1_101, -300),
    (-200, -200),
    (-401, -401),
    (0, -200),
    (0, -401),
];

/// 02, CR 5: the same, where something is in doubt.
const DOUBTFUL: [(i64, i64); 14] = [
    (401, 0),
    (600, 0),
    (800, 0),
    (601, -200),
    (1_000, -200),
    (802, -401),
    (1_201, -401),
    (800, -400),
    (-200, -201),
    (-300, -300),
    (-400, -400),
    (0, -400),
    (201, -201),
    (300, -300),
];

/// 02, CR 5: the same, for marked circuits.
const MARKED: [(i64, i64); 6] = [(200, -900), (401, -1), (-200, -1_000), (-401, -700), (650, 0), (850, -300)];

/// What a spur has: flows away from it, in kW, year round and at peak, and whether its circuits are marked. Edition 1 has one
/// background.
fn chosen_flows(chance: &mut Chance, edition: Edition, taste: &str) -> ((i64, i64), bool) {
    let flow = -chance.of(&[&FLOWS[..], &[(chance.0 % 200 + 201) as i64]].concat());
    match (edition, chance.within(0, 9)) {
        (Edition::Two, _) if taste == IN_DOUBT => (chance.of(&DOUBTFUL), false),
        (Edition::One, chosen) => ((flow, flow), chosen < 5),
        (Edition::Two, 0) => {
            let peak = -(chance.within(0, 1_500) as i64);
            ((peak + chance.within(0, 3_000) as i64, peak), chance.within(0, 1) == 0)
        }
        (Edition::Two, 1 | 2) => (chance.of(&MARKED), true),
        (Edition::Two, 3 | 4) => (chance.of(&DOUBTFUL), false),
        (Edition::Two, _) => (chance.of(&ACCEPTED), chance.within(0, 3) == 0),
    }
}

/// On most cases a spur, in edition 2 up to four. One node alone keeps its place half of the time.
pub fn add_spurs(chance: &mut Chance, case: &mut Case, taste: &str) {
    let most = match (case.edition, case.nodes.len()) {
        _ if taste == IN_DOUBT => 4,
        (_, 1) if chance.within(0, 1) == 0 => 0,
        (Edition::One, _) => chance.of(&[0, 1, 1]),
        (Edition::Two, _) => chance.within(0, 4),
    };
    (0..most).for_each(|number| add_spur(chance, case, taste, number));
}

/// A spur. Where a length would leave a circuit in doubt it has none, and with one it would be.
fn add_spur(chance: &mut Chance, case: &mut Case, taste: &str, number: u64) {
    let spur = padded(format!("SPUR_{number}").as_bytes());
    let count = chance.of(&[1, 2, 2]);
    let (flows, marked) = chosen_flows(chance, case.edition, taste);
    let [demand, fixed] = [-flows.1, flows.0 - flows.1].map(|kw| (count as i64 * kw) as u32);
    let station = (fixed > 0).then(|| fixed_station(chance, spur, fixed));
    if !has_room(case, taste, count, demand, station.as_ref()) {
        return;
    }
    let others: Vec<Name> = case.nodes.iter().map(|row| row.name).filter(|name| !is_spur(name)).collect();
    let at = chance.of(&others);
    let x = if count == 1 { chance.spread(1, 10_000) } else { chance.of(&[1, 1, 7, 20]) };
    for _ in 0..count {
        let [year_round, peak] = [flows.0, flows.1].map(|kw| 1_000_000 * kw);
        let in_doubt = Flows { edition: case.edition, marked, year_round, peak }.doubt().is_some();
        let (first, second) = if chance.within(0, 1) == 0 { (at, spur) } else { (spur, at) };
        let (overhead, mark) = (if in_doubt { 0 } else { 1_000 }, marked as u32);
        let circuit = CircuitRow { first, second, voltage: 400, x, overhead, cable: 0, mark, factor: 0 };
        let place = chance.within(0, case.circuits.len() as u64) as usize;
        case.circuits.insert(place, circuit);
    }
    case.nodes.push(NodeRow { name: spur, generation_zone: 1, demand_zone: 1, demand });
    case.stations.extend(station);
}

/// Whether a case has a place for a spur, by its counts and by its kilowatts.
fn has_room(case: &Case, taste: &str, circuits: usize, demand: u32, station: Option<&StationRow>) -> bool {
    let counts = case.nodes.len() < 255
        && case.circuits.len() + circuits <= most_circuits((case.version, case.edition))
        && case.stations.len() < 512;
    counts
        && match case.edition {
            Edition::One => total_tec(case) >= total_demand(case) + demand as u64,
            // demand is fitted afterwards; these tastes have none to spare
            Edition::Two => {
                let tec = station.map_or(0, |row| row.tec as u64);
                ![LEAST, ONE_KILOWATT, TEC_EQUAL, HALVES].contains(&taste) && total_tec(case) + tec <= 100_000_000
            }
        }
}

/// 02, CR 5: a station that runs at so many kW year round and at 0 at peak: of type 3 at its TEC, or of type 1 at 70 % of it.
fn fixed_station(chance: &mut Chance, node: Name, kw: u32) -> StationRow {
    let (plant, tec) = chance.of(&[(3, kw), (1, (10 * kw).div_ceil(7))]);
    StationRow { identifier: node, node, plant, tec }
}
