//! Cases by chance, for comparisons: the same number gives the same case.

use crate::background::Background;
use crate::charges::{fixed_generation, total, variable_tec};
use crate::file::{padded, Case, CircuitRow, Edition, NodeRow, Settings, StationRow, Version, TABLES};
use crate::quantities::ROW_KW;
use crate::solver::solved;
use crate::tables::{sound_tables, Tables};

/// A plain generator of numbers by chance (splitmix64).
pub struct Chance(pub u64);

impl Chance {
    /// The next 64 bits.
    pub fn bits(&mut self) -> u64 {
        self.0 = self.0.wrapping_add(0x9e37_79b9_7f4a_7c15);
        let mut bits = self.0;
        bits = (bits ^ (bits >> 30)).wrapping_mul(0xbf58_476d_1ce4_e5b9);
        bits = (bits ^ (bits >> 27)).wrapping_mul(0x94d0_49bb_1331_11eb);
        bits ^ (bits >> 31)
    }

    /// A number from `low` to `high`, both included.
    pub fn within(&mut self, low: u64, high: u64) -> u64 {
        low + self.bits() % (high - low + 1)
    }

    /// One of a list.
    pub fn of<T: Copy>(&mut self, list: &[T]) -> T {
        list[self.within(0, list.len() as u64 - 1) as usize]
    }

    /// A number from `low` to `high` whose size varies, the ends more likely than elsewhere.
    pub fn spread(&mut self, low: u64, high: u64) -> u32 {
        let number = match self.within(0, 11) {
            0 => low,
            1 => high,
            2..=5 => self.within(low, high),
            _ => low + (high - low) / 10u64.pow(self.within(1, 3) as u32) * self.within(0, 100) / 100,
        };
        number as u32
    }
}

/// A case of at most so many nodes, with sound tables for nearly every number and solutions for those.
pub fn random(seed: u64, most_nodes: u64) -> Case {
    solved(&drawn(seed, most_nodes)).0
}

/// Such a case without solutions.
fn drawn(seed: u64, most_nodes: u64) -> Case {
    let chance = &mut Chance(seed);
    let nodes = chance.within(1, most_nodes.clamp(1, 256));
    let more = if nodes == 1 { 0 } else { chance.within(0, nodes.min(512 + 1 - nodes)) };
    let stations = chance.within(1, (2 * nodes).min(512));
    let settings = settings(chance, nodes);
    let mut case = Case {
        version: Version::One,
        edition: Edition::One,
        nodes: (0..nodes).map(|number| node(chance, number, &settings)).collect(),
        circuits: (1..nodes + more).map(|number| circuit(chance, number, nodes)).collect(),
        stations: (0..stations).map(|number| station(chance, number, nodes)).collect(),
        runs: Default::default(),
        settings,
    };
    fit_totals(&mut case);
    case
}

/// 02, CR 3: such a case in version 2, where three circuits in four have a factor of their own, some of them at 320 or 525.
pub fn random_of_version_2(seed: u64, most_nodes: u64) -> Case {
    solved(&drawn_of_version_2(seed, most_nodes)).0
}

/// Such a case without solutions.
fn drawn_of_version_2(seed: u64, most_nodes: u64) -> Case {
    let chance = &mut Chance(!seed);
    let mut case = Case { version: Version::Two, ..drawn(seed, most_nodes) };
    // What reaches each node stands first.
    case.circuits.truncate(480);
    for row in &mut case.circuits {
        let own = chance.spread(1_000, 30_000);
        match chance.within(0, 3) {
            0 => (),
            1 => (row.voltage, row.factor) = (chance.of(&[320, 525]), own),
            _ => row.factor = own,
        }
    }
    case
}

/// 02, CR 5: such a case of edition 2. Fifteen in sixteen have a demand that 14 lets pass, some of them at its ends.
pub fn random_of_edition_2(seed: u64, most_nodes: u64) -> Case {
    let chance = &mut Chance(seed ^ 0x5555_5555_5555_5555);
    let mut case = drawn_of_version_2(seed, most_nodes);
    // What reaches each node stands first.
    case.circuits.truncate(320);
    let mut case = case.in_edition_2().expect("version 2 and at most 320 circuits");
    if chance.within(0, 15) > 0 {
        fit_backgrounds(&mut case, chance);
    }
    solved(&case).0
}

/// 02, CR 5: brings demand between what 14 asks for, with less of types 1 and 3 until there is room.
fn fit_backgrounds(case: &mut Case, chance: &mut Chance) {
    // Some demand to share, and some TEC that is variable in both backgrounds.
    case.nodes[0].demand = case.nodes[0].demand.max(1);
    (case.stations[0].plant, case.stations[0].tec) = (7, case.stations[0].tec.max(1_000));
    fit_totals(case);
    for _ in 0..32 {
        let Ok(tables) = sound_tables(case) else { return };
        let (low, high) = lawful_demand(&tables);
        if low <= high {
            let demand = match chance.within(0, 7) {
                0 => low,
                1 => high,
                _ => low + chance.within(0, (high - low) as u64) as i128,
            };
            return share_demand(case, demand as u64);
        }
        case.stations.iter_mut().filter(|row| [1, 3].contains(&row.plant)).for_each(|row| row.tec /= 2);
        fit_totals(case);
    }
}

/// 02, CR 5: the least and the greatest demand, in kW, that 14 lets pass.
fn lawful_demand(tables: &Tables) -> (i128, i128) {
    let ends = [Background::YearRound, Background::Peak].map(|background| {
        let fixed = total(&fixed_generation(tables, background)).0;
        (fixed.max(1), fixed + total(&variable_tec(tables, background)).0)
    });
    (ends[0].0.max(ends[1].0), ends[0].1.min(ends[1].1))
}

/// So much demand over the nodes as they share it now, no node above its range.
fn share_demand(case: &mut Case, demand: u64) {
    let old: u64 = case.nodes.iter().map(|row| row.demand as u64).sum();
    let most = ROW_KW.1 as u64;
    let mut left = demand;
    for row in &mut case.nodes {
        row.demand = (row.demand as u64 * demand / old).min(most).min(left) as u32;
        left -= row.demand as u64;
    }
    for row in &mut case.nodes {
        let more = left.min(most - row.demand as u64);
        row.demand += more as u32;
        left -= more;
    }
}

/// 02, CR 12: another case of a network by chance: its circuits, names, factors and reference, and demand, stations, zones
/// and money by chance.
pub fn another(network: &Case, seed: u64) -> Case {
    let chance = &mut Chance(seed);
    let nodes = network.nodes.len() as u64;
    let settings = other_settings(network, chance);
    let mut case = Case {
        nodes: other_nodes(network, chance, &settings),
        stations: (0..2 * nodes).map(|number| station(chance, number, nodes)).collect(),
        settings,
        ..network.clone()
    };
    fit_totals(&mut case);
    solved(&case).0
}

/// 02, CR 12: the same with the network's stations, and each demand and TEC by at most so many per cent more or less.
pub fn near(network: &Case, seed: u64, percent: u64) -> Case {
    let chance = &mut Chance(seed);
    let settings = other_settings(network, chance);
    let mut case = Case { nodes: other_nodes(network, chance, &settings), settings, ..network.clone() };
    let mut moved = |kw: u32| (kw as u64 * chance.within(100 - percent, 100 + percent) / 100) as u32;
    for (row, old) in case.nodes.iter_mut().zip(&network.nodes) {
        row.demand = moved(old.demand);
    }
    case.stations.iter_mut().for_each(|row| row.tec = moved(row.tec));
    case.stations.iter_mut().for_each(|row| row.plant = chance.within(1, 7) as u32);
    fit_totals(&mut case);
    solved(&case).0
}

/// Settings by chance but for a network's factors and reference.
fn other_settings(network: &Case, chance: &mut Chance) -> Settings {
    let (factors, reference) = (network.settings.factors, network.settings.reference);
    Settings { factors, reference, ..settings(chance, network.nodes.len() as u64) }
}

/// A network's names, their demand and zones by chance.
fn other_nodes(network: &Case, chance: &mut Chance, settings: &Settings) -> Vec<NodeRow> {
    let rows = network.nodes.iter().zip(0..);
    rows.map(|(row, number)| NodeRow { name: row.name, ..node(chance, number, settings) }).collect()
}

/// Settings anywhere in their ranges.
fn settings(chance: &mut Chance, nodes: u64) -> Settings {
    Settings {
        generation_zones: chance.within(1, 32.min(nodes + 1)) as u32,
        demand_zones: chance.within(1, 32.min(nodes + 1)) as u32,
        p: chance.spread(0, 1_000),
        constant: chance.spread(1, 10_000),
        wider_factor: chance.spread(1_000, 5_000),
        local_factor: chance.spread(1_000, 5_000),
        factors: std::array::from_fn(|place| if place == 0 { 1_000 } else { chance.spread(1_000, 30_000) }),
        reference: chance.within(1, nodes) as u32,
        zero: 0,
        revenue: chance.of(&[0, 1, 999_999, 100_000_000, 2_939_300_000, 10_000_000_000]),
    }
}

/// A node's name by its number.
fn name(number: u64) -> [u8; 12] {
    padded(format!("N{number}").as_bytes())
}

/// A node of any zone; about a third have no demand.
fn node(chance: &mut Chance, number: u64, settings: &Settings) -> NodeRow {
    NodeRow {
        name: name(number),
        generation_zone: chance.within(1, settings.generation_zones as u64) as u32,
        demand_zone: chance.within(1, settings.demand_zones as u64) as u32,
        demand: if chance.within(0, 2) == 0 { 0 } else { chance.spread(0, 3_000_000) },
    }
}

/// A circuit: the first ones hang each node on an earlier one, the others join any two.
fn circuit(chance: &mut Chance, number: u64, nodes: u64) -> CircuitRow {
    let first = if number < nodes { number } else { chance.within(0, nodes - 1) };
    let second =
        if number < nodes { chance.within(0, first - 1) } else { (first + chance.within(1, nodes - 1)) % nodes };
    let turned = chance.within(0, 1) == 1;
    let (first, second) = if turned { (second, first) } else { (first, second) };
    CircuitRow {
        first: name(first),
        second: name(second),
        voltage: chance.of(&[132, 275, 400]),
        x: chance.spread(1, 10_000),
        overhead: chance.spread(0, 100_000),
        cable: if chance.within(0, 3) == 0 { chance.spread(0, 5_000) } else { 0 },
        mark: (chance.within(0, 4) == 0) as u32,
        factor: 0,
    }
}

/// A station at any node.
fn station(chance: &mut Chance, number: u64, nodes: u64) -> StationRow {
    StationRow {
        identifier: padded(format!("S{number}").as_bytes()),
        node: name(chance.within(0, nodes - 1)),
        plant: chance.within(1, 7) as u32,
        tec: if chance.within(0, 9) == 0 { 0 } else { chance.spread(1, 5_000_000) },
    }
}

/// 01 "What stops a case", 7: brings TEC under its greatest total, then demand under TEC.
fn fit_totals(case: &mut Case) {
    let tec = |case: &Case| case.stations.iter().map(|row| row.tec as u64).sum::<u64>();
    let demand = |case: &Case| case.nodes.iter().map(|row| row.demand as u64).sum::<u64>();
    while tec(case) > 100_000_000 {
        case.stations.iter_mut().for_each(|row| row.tec /= 2);
    }
    while demand(case) > tec(case) {
        case.nodes.iter_mut().for_each(|row| row.demand /= 2);
    }
}

/// Numbers at the ends of 01's ranges for fields of 32 bits, and one beyond.
const EDGES_32: [u32; 32] = [
    0,
    1,
    2,
    3,
    7,
    8,
    31,
    32,
    33,
    132,
    275,
    276,
    400,
    401,
    999,
    1_000,
    1_001,
    4_999,
    5_000,
    5_001,
    9_999,
    10_000,
    10_001,
    29_999,
    30_000,
    30_001,
    500_000,
    500_001,
    20_000_000,
    20_000_001,
    1 << 31,
    u32::MAX,
];

/// 02, CR 3: numbers of its rules, for fields of 32 bits in files of version 2.
const EDGES_VERSION_2: [u32; 6] = [319, 320, 321, 524, 525, 526];

/// 02, CR 5: proposed numbers of its bands, for files of edition 2.
const EDGES_EDITION_2: [i64; 4] = [800_000_000, 800_000_001, -800_000_001, 600_000_000];

/// Numbers at the ends of 01's ranges for proposed numbers, and one beyond.
const EDGES_64: [i64; 16] = [
    0,
    1,
    200_000_000,
    200_000_001,
    400_000_000,
    400_000_001,
    500_000_000,
    100_000_000_000_000,
    100_000_000_000_001,
    10_000_000_000_000_000,
    10_000_000_000_000_001,
    2_000_000_000_000_000_000,
    2_000_000_000_000_000_001,
    i64::MAX,
    -i64::MAX,
    i64::MIN,
];

/// A case with one thing changed by chance: a field of 32 bits, a proposed number, a name. Its counts stay, so its
/// file stays whole but for the settings' zero.
pub fn spoiled(case: &Case, seed: u64) -> Case {
    let chance = &mut Chance(seed);
    let counts = case.counts();
    let mut sections = case.section_bytes();
    let offsets: Vec<usize> = case.trailer().offsets.iter().map(|offset| *offset as usize).collect();
    let tables = offsets[TABLES];
    match chance.within(0, 3) {
        0 => {
            let place = 4 * chance.within(0, tables as u64 / 4 - 1) as usize;
            sections[place..place + 4].copy_from_slice(&edge_32(case.version, chance).to_le_bytes());
        }
        1 => {
            // One table's row over another row of its kind: names repeat, ends change.
            let section = chance.within(1, 3) as usize;
            let (start, size) = (offsets[section], case.version.sizes()[section]);
            if counts[section] > 1 {
                let row = |chance: &mut Chance| start + size * chance.within(0, counts[section] as u64 - 1) as usize;
                let (from, to, length) = (row(chance), row(chance), chance.of(&[12, 24, size]));
                sections.copy_within(from..from + length, to);
            }
        }
        2 => {
            let place = chance.within(0, tables as u64 - 1) as usize;
            sections[place] = chance.of(b" A_a0\0\x01\xff");
        }
        _ => {
            let numbers = (sections.len() - tables) as u64 / 8;
            let place = tables + 8 * chance.within(0, numbers - 1) as usize;
            let old = i64::from_le_bytes(sections[place..place + 8].try_into().unwrap());
            let near = old.saturating_add(chance.of(&[1, -1, 50_000_000, 50_000_001, 100_000_000, -100_000_001]));
            let new = if chance.within(0, 1) == 0 { near } else { edge_64(case.edition, chance) };
            sections[place..place + 8].copy_from_slice(&new.to_le_bytes());
        }
    }
    Case::read(&sections, case.version, case.edition, &counts).expect("the counts stay")
}

/// A proposed number at the end of a range or of a band.
fn edge_64(edition: Edition, chance: &mut Chance) -> i64 {
    match edition {
        Edition::One => chance.of(&EDGES_64),
        Edition::Two => chance.of(&[&EDGES_64[..], &EDGES_EDITION_2].concat()),
    }
}

/// A number at the end of a range for fields of 32 bits.
fn edge_32(version: Version, chance: &mut Chance) -> u32 {
    match version {
        Version::One => chance.of(&EDGES_32),
        Version::Two => chance.of(&[&EDGES_32[..], &EDGES_VERSION_2].concat()),
    }
}
