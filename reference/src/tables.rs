//! 01 "What stops a case", 2 to 7: settings, tables, reach and totals. Tables that pass are sound. 02, CR 1: 13 behind
//! them.

use crate::file::{well_formed, Case, CircuitRow, Edition, Name, NodeRow, Settings, StationRow};
use crate::quantities::*;
use crate::refusal::Refusal;

/// 01 "The case file": the number of interconnectors among the plant types; 02, CR 1: "Type 3".
pub const INTERCONNECTOR: u32 = 3;

/// 01 "The case file": plant types 1 to 7, "the rows of the table in 14.15.7 (source document 000), in order".
#[derive(Clone, Copy, Debug, PartialEq, Eq)]
pub enum Plant {
    Intermittent,
    NuclearAndCcs,
    Interconnector,
    Hydro,
    PumpedStorage,
    Peaking,
    Other,
}

/// 01 "The case file": the plant types in the order of their numbers.
pub const PLANTS: [Plant; 7] = [
    Plant::Intermittent,
    Plant::NuclearAndCcs,
    Plant::Interconnector,
    Plant::Hydro,
    Plant::PumpedStorage,
    Plant::Peaking,
    Plant::Other,
];

impl Plant {
    /// 02, CR 1: "Interconnectors don't pay".
    pub fn pays(self) -> bool {
        match self {
            Plant::Interconnector => false,
            Plant::Intermittent
            | Plant::NuclearAndCcs
            | Plant::Hydro
            | Plant::PumpedStorage
            | Plant::Peaking
            | Plant::Other => true,
        }
    }

    /// 02, CR 6: "low carbon TEC (types 1, 2, 4) and carbon TEC (the rest)".
    pub fn is_low_carbon(self) -> bool {
        match self {
            Plant::Intermittent | Plant::NuclearAndCcs | Plant::Hydro => true,
            Plant::Interconnector | Plant::PumpedStorage | Plant::Peaking | Plant::Other => false,
        }
    }
}

/// A node row that passed refusal 3. Zones count from 1.
#[derive(Clone, Debug)]
pub struct Node {
    pub name: Name,
    pub generation_zone: usize,
    pub demand_zone: usize,
    pub demand: Kw,
}

/// A circuit row that passed refusal 4. Ends are places in the node table, from 0.
#[derive(Clone, Debug)]
pub struct Circuit {
    pub first: usize,
    pub second: usize,
    pub x: i128,
    /// 01 step 4, mm.
    pub expanded_length: i128,
    pub local: bool,
}

/// A station row that passed refusal 5. The node is a place in the node table, from 0.
#[derive(Clone, Debug)]
pub struct Station {
    pub node: usize,
    pub plant: Plant,
    pub tec: Kw,
}

impl Station {
    /// 02, CR 1: the kilowatts of its TEC that are charged: all, or none of an interconnector's.
    pub fn chargeable(&self) -> Kw {
        if self.plant.pays() {
            self.tec
        } else {
            Kw(0)
        }
    }
}

/// 01 "What stops a case": "Tables are sound when none of 1 to 7 holds".
#[derive(Clone, Debug)]
pub struct Tables {
    pub edition: Edition,
    pub settings: Settings,
    /// The reference node's place in the node table, from 0.
    pub reference: usize,
    pub nodes: Vec<Node>,
    pub circuits: Vec<Circuit>,
    pub stations: Vec<Station>,
    pub total_demand: Kw,
    pub total_tec: Kw,
    /// 02, CR 1: total TEC without type 3.
    pub total_chargeable: Kw,
}

/// 01 "What stops a case", 2 to 7 in this order.
pub fn sound_tables(case: &Case) -> Result<Tables, Refusal> {
    let refused = |number, row: usize| Refusal { number, system: 0, row: row as u32 };
    if !settings_in_range(&case.settings, case.nodes.len()) {
        return Err(refused(2, 0));
    }
    let nodes = node_table(case).map_err(|row| refused(3, row))?;
    let circuits = circuit_table(case).map_err(|row| refused(4, row))?;
    let stations = station_table(case).map_err(|row| refused(5, row))?;
    let reference = case.settings.reference as usize - 1;
    if let Some(place) = lowest_unreached(nodes.len(), &circuits, reference) {
        return Err(refused(6, place + 1));
    }
    let total_demand = Kw(nodes.iter().map(|node| node.demand.0).sum());
    let total_tec = Kw(stations.iter().map(|station| station.tec.0).sum());
    if !totals_in_range(total_demand, total_tec) {
        return Err(refused(7, 0));
    }
    let total_chargeable = Kw(stations.iter().map(|station| station.chargeable().0).sum());
    let (edition, settings) = (case.edition, case.settings.clone());
    Ok(Tables { edition, settings, reference, nodes, circuits, stations, total_demand, total_tec, total_chargeable })
}

/// 02, CR 1: "13, system 0 row 0, no chargeable TEC, after 7". Such tables are sound all the same: 01 has it that
/// "Tables are sound when none of 1 to 7 holds".
pub fn judge_chargeable(tables: &Tables) -> Result<(), Refusal> {
    match tables.total_chargeable {
        Kw(0) => Err(Refusal { number: 13, system: 0, row: 0 }),
        _ => Ok(()),
    }
}

/// 01 "What stops a case", 2: "a setting outside its range (reference row included)".
fn settings_in_range(settings: &Settings, nodes: usize) -> bool {
    within(settings.generation_zones, ZONES)
        && within(settings.demand_zones, ZONES)
        && within(settings.p, SHARE)
        && within(settings.constant, CONSTANT)
        && within(settings.wider_factor, SECURITY)
        && within(settings.local_factor, SECURITY)
        && within(settings.factors[0], EXPANSION_400_OVERHEAD)
        && settings.factors[1..].iter().all(|factor| within(*factor, EXPANSION))
        && within(settings.reference, (1, nodes as u32))
        && within(settings.revenue, REVENUE)
}

/// 01 "The case file": "Zones run from 1 to the setting's count; zero isn't a zone".
fn is_zone(zone: u32, zones: u32) -> bool {
    within(zone, (1, zones))
}

/// 01 "What stops a case", 3: the node table, or the lowest row (from 1) that is "malformed, out of range, or its
/// name seen earlier".
fn node_table(case: &Case) -> Result<Vec<Node>, usize> {
    let mut nodes = Vec::new();
    for (place, row) in case.nodes.iter().enumerate() {
        let earlier = &case.nodes[..place];
        let seen = earlier.iter().any(|other| other.name == row.name);
        nodes.push(node(row, &case.settings).filter(|_| !seen).ok_or(place + 1)?);
    }
    Ok(nodes)
}

/// 01 "What stops a case", 3: one node row by itself.
fn node(row: &NodeRow, settings: &Settings) -> Option<Node> {
    let lawful = well_formed(&row.name)
        && is_zone(row.generation_zone, settings.generation_zones)
        && is_zone(row.demand_zone, settings.demand_zones)
        && within(row.demand, ROW_KW);
    lawful.then_some(Node {
        name: row.name,
        generation_zone: row.generation_zone as usize,
        demand_zone: row.demand_zone as usize,
        demand: Kw(row.demand as i128),
    })
}

/// 01 "What stops a case", 4: the circuit table, or the lowest row (from 1) that is "malformed, out of range,
/// unknown end, equal ends".
fn circuit_table(case: &Case) -> Result<Vec<Circuit>, usize> {
    case.circuits.iter().enumerate().map(|(place, row)| circuit(row, case).ok_or(place + 1)).collect()
}

/// 01 "What stops a case", 4: one circuit row. A malformed end is unknown, since no node in the table bears it. 02, CR 3:
/// "4 also covers the new rules".
fn circuit(row: &CircuitRow, case: &Case) -> Option<Circuit> {
    let first = node_named(&row.first, &case.nodes)?;
    let second = node_named(&row.second, &case.nodes)?;
    let (overhead_factor, cable_factor) = expansion_factors(row, &case.settings)?;
    let lawful = first != second
        && within(row.x, REACTANCE)
        && within(row.overhead, LENGTH)
        && within(row.cable, LENGTH)
        && within(row.mark, (0, 1));
    lawful.then(|| Circuit {
        first,
        second,
        x: row.x as i128,
        expanded_length: expanded_length(row, overhead_factor, cable_factor),
        local: row.mark == 1,
    })
}

/// 01 "The case file": the place of the node that bears a name. Refusal 3 went before: no two nodes share one.
fn node_named(name: &Name, nodes: &[NodeRow]) -> Option<usize> {
    nodes.iter().position(|node| node.name == *name)
}

/// 02, CR 3: overhead and cable factor of a row: "0 means by voltage, otherwise 1,000 to 30,000 for both lengths of the
/// row. At 320 or 525, new voltages, it may not be 0". `None` where that is broken, and for any other voltage.
fn expansion_factors(row: &CircuitRow, settings: &Settings) -> Option<(u32, u32)> {
    match (row.voltage, row.factor) {
        (voltage, 0) => factors_by_voltage(voltage, settings),
        (132 | 275 | 400 | 320 | 525, own) if within(own, EXPANSION) => Some((own, own)),
        _ => None,
    }
}

/// 01 step 4: overhead and cable factor "by voltage"; `None` for a voltage other than 132, 275 and 400.
fn factors_by_voltage(voltage: u32, settings: &Settings) -> Option<(u32, u32)> {
    let factors = &settings.factors;
    match voltage {
        400 => Some((factors[0], factors[1])),
        275 => Some((factors[2], factors[3])),
        132 => Some((factors[4], factors[5])),
        _ => None,
    }
}

/// 01 step 4: "Expanded length in mm is overhead metres times its factor plus cable metres times its factor".
fn expanded_length(row: &CircuitRow, overhead_factor: u32, cable_factor: u32) -> i128 {
    row.overhead as i128 * overhead_factor as i128 + row.cable as i128 * cable_factor as i128
}

/// 01 "What stops a case", 5: the station table, or the lowest row (from 1) that is "malformed, out of range,
/// unknown node, identifier seen earlier".
fn station_table(case: &Case) -> Result<Vec<Station>, usize> {
    let mut stations = Vec::new();
    for (place, row) in case.stations.iter().enumerate() {
        let earlier = &case.stations[..place];
        let seen = earlier.iter().any(|other| other.identifier == row.identifier);
        stations.push(station(row, &case.nodes).filter(|_| !seen).ok_or(place + 1)?);
    }
    Ok(stations)
}

/// 01 "What stops a case", 5: one station row by itself.
fn station(row: &StationRow, nodes: &[NodeRow]) -> Option<Station> {
    let node = node_named(&row.node, nodes)?;
    let plant = plant(row.plant)?;
    let lawful = well_formed(&row.identifier) && within(row.tec, ROW_KW);
    lawful.then_some(Station { node, plant, tec: Kw(row.tec as i128) })
}

/// 01 "The case file": "Plant types 1 to 7".
fn plant(number: u32) -> Option<Plant> {
    PLANTS.get((number as usize).checked_sub(1)?).copied()
}

/// 01 "What stops a case", 6: the place (from 0) of the lowest node that "can't be reached from the reference".
/// A circuit joins its ends both ways, whatever its mark, length, x or voltage.
fn lowest_unreached(nodes: usize, circuits: &[Circuit], reference: usize) -> Option<usize> {
    let mut reached = vec![false; nodes];
    let mut waiting = vec![reference];
    reached[reference] = true;
    while let Some(here) = waiting.pop() {
        for circuit in circuits {
            for (from, to) in [(circuit.first, circuit.second), (circuit.second, circuit.first)] {
                if from == here && !reached[to] {
                    reached[to] = true;
                    waiting.push(to);
                }
            }
        }
    }
    reached.iter().position(|node| !node)
}

/// 01 "What stops a case", 7: "a total outside its range, or total TEC below total demand" doesn't hold.
fn totals_in_range(total_demand: Kw, total_tec: Kw) -> bool {
    within(total_demand.0, TOTAL_KW) && within(total_tec.0, TOTAL_KW) && total_tec >= total_demand
}
