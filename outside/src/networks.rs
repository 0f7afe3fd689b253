//! Networks by chance, of every size and shape, solved: what the other inputs are made from.

use crate::backgrounds::fit_demand;
use crate::bands::{has_length, Flows};
use crate::halves::negative_halves;
use crate::spurs::add_spurs;
use reference::file::{padded, Case, CircuitRow, Edition, Name, NodeRow, Settings, StationRow, Version};
use reference::judge_case;
use reference::random::Chance;
use reference::solver::solved;
use reference::tables::INTERCONNECTOR;

/// A name, and the ends of the circuits between so many nodes.
pub type Shape = (&'static str, fn(&mut Chance, usize) -> Vec<(usize, usize)>);

/// How the circuits lie.
pub const SHAPES: [Shape; 6] = [
    ("chain", |_, nodes| (1..nodes).map(|node| (node - 1, node)).collect()),
    ("star", |_, nodes| (1..nodes).map(|node| (0, node)).collect()),
    ("tree", tree),
    ("ring", ring),
    ("parallel circuits", doubled),
    ("mesh", mesh),
];

/// What the figures are like; the last five are of edition 2 alone, where there are twice as many places for halves.
const TASTES: [&str; 14] = [
    "ordinary",
    "at the ends of ranges",
    "idle circuits",
    "marked circuits",
    TEC_EQUAL,
    LEAST,
    GREATEST,
    ONE_KILOWATT,
    HALVES,
    NOTHING_REMAINS,
    FIXED_ALONE,
    AS_MUCH_AS_RUNS,
    IN_DOUBT,
    HALVES,
];

pub const TEC_EQUAL: &str = "TEC equal to demand";
pub const LEAST: &str = "least totals";
pub const GREATEST: &str = "greatest totals";
/// 02, CR 1.
pub const ONE_KILOWATT: &str = "one chargeable kilowatt";
/// 02, CR 2: figures whose divisions leave halves.
pub const HALVES: &str = "halves";
/// 02, CR 5: year round the fixed types meet demand and the variable ones run at 0.
pub const NOTHING_REMAINS: &str = "nothing remains year round";
/// 02, CR 5: the same, and year round no type is variable.
pub const FIXED_ALONE: &str = "fixed types alone";
/// 02, CR 5: in one background the variable types run at their whole TEC.
pub const AS_MUCH_AS_RUNS: &str = "as much demand as may run";
/// 02, CR 5: several circuits that are in doubt, were it not for their length.
pub const IN_DOUBT: &str = "circuits in doubt";

/// The tastes of an edition.
pub fn tastes(edition: Edition) -> &'static [&'static str] {
    match edition {
        Edition::One => &TASTES[..9],
        Edition::Two => &TASTES,
    }
}

/// What a network's file is of.
pub type Form = (Version, Edition);

pub const VERSION_1: Form = (Version::One, Edition::One);
pub const VERSION_2: Form = (Version::Two, Edition::One);
pub const EDITION_2: Form = (Version::Two, Edition::Two);

/// The most circuits of a file: 01's, 02's in CR 3 and in CR 5.
pub fn most_circuits((version, edition): Form) -> usize {
    match (version, edition) {
        (Version::One, _) => 512,
        (Version::Two, Edition::One) => 480,
        (Version::Two, Edition::Two) => 320,
    }
}

/// 02, CR 1: the plant types that pay.
pub const PAYING: [u32; 6] = [1, 2, 4, 5, 6, 7];

/// Each node on an earlier one.
fn tree(chance: &mut Chance, nodes: usize) -> Vec<(usize, usize)> {
    (1..nodes).map(|node| (chance.within(0, node as u64 - 1) as usize, node)).collect()
}

/// A chain whose ends meet.
fn ring(_: &mut Chance, nodes: usize) -> Vec<(usize, usize)> {
    let back = if nodes > 2 { vec![(nodes - 1, 0)] } else { Vec::new() };
    (1..nodes).map(|node| (node - 1, node)).chain(back).collect()
}

/// A tree of which any circuit may have one or two more beside it.
fn doubled(chance: &mut Chance, nodes: usize) -> Vec<(usize, usize)> {
    let tree = tree(chance, nodes);
    let more: Vec<_> = tree.iter().flat_map(|ends| vec![*ends; chance.within(0, 2) as usize]).collect();
    tree.into_iter().chain(more).take(512).collect()
}

/// A tree and as many circuits again between any two nodes.
fn mesh(chance: &mut Chance, nodes: usize) -> Vec<(usize, usize)> {
    let mut circuits = tree(chance, nodes);
    let more = if nodes == 1 { 0 } else { (nodes + 1).min(512 - circuits.len()) };
    for _ in 0..more {
        let first = chance.within(0, nodes as u64 - 1);
        let second = (first + chance.within(1, nodes as u64 - 1)) % nodes as u64;
        circuits.push((first as usize, second as usize));
    }
    circuits
}

/// Numbers by taste.
struct Figures<'a> {
    chance: &'a mut Chance,
    taste: &'static str,
    edition: Edition,
    /// The plant types, each as often as it stands here.
    plants: &'static [u32],
    /// 02, CR 3: circuits may have factors of their own.
    factors: bool,
    /// 02, CR 6: many generation zones, and each as likely for a node, so that chains of a share file are long.
    many_zones: bool,
}

impl Figures<'_> {
    /// A number of a range.
    fn within(&mut self, low: u64, high: u64) -> u32 {
        match self.taste == "at the ends of ranges" && self.chance.within(0, 1) == 0 {
            true => self.chance.of(&[low, high]) as u32,
            false => self.chance.spread(low, high),
        }
    }

    /// How many generation zones a network of so many nodes has.
    fn generation_zones(&mut self, nodes: usize) -> u32 {
        let most = (2 * nodes as u64).min(32);
        match self.many_zones {
            true if nodes == 256 => 32,
            true => self.chance.of(&[most, self.chance.0 % most + 1]) as u32,
            false => self.within(1, 32),
        }
    }

    fn settings(&mut self, nodes: usize) -> Settings {
        let settings = Settings {
            generation_zones: self.generation_zones(nodes),
            demand_zones: self.within(1, 32),
            p: self.within(0, 1_000),
            constant: self.within(1, 10_000),
            wider_factor: self.within(1_000, 5_000),
            local_factor: self.within(1_000, 5_000),
            factors: std::array::from_fn(|place| if place == 0 { 1_000 } else { self.within(1_000, 30_000) }),
            reference: self.chance.within(1, nodes as u64) as u32,
            zero: self.edition.zero(),
            revenue: self.chance.of(&[0, 1, 999_999, 100_000_000, 2_939_300_000, 10_000_000_000]),
        };
        match self.taste == HALVES {
            true => self.halving_settings(settings),
            false => settings,
        }
    }

    /// Few zones, lengths of half metres, and tariffs of half micro-pounds a metre.
    fn halving_settings(&mut self, settings: Settings) -> Settings {
        let chance = &mut *self.chance;
        Settings {
            generation_zones: chance.within(2, 4) as u32,
            demand_zones: chance.within(2, 4) as u32,
            p: chance.of(&[0, 250, 500, 500, 1_000]),
            constant: chance.of(&[50, 150]),
            wider_factor: chance.of(&[1_000, 3_000]),
            local_factor: chance.of(&[1_000, 3_000]),
            factors: std::array::from_fn(|place| if place == 0 { 1_000 } else { 500 * chance.within(2, 5) as u32 }),
            ..settings
        }
    }

    fn node(&mut self, name: Name, settings: &Settings) -> NodeRow {
        let demand = match self.chance.within(0, 2) {
            0 => 0,
            _ if self.taste == "at the ends of ranges" => self.chance.of(&[0, 1, 20_000_000]),
            _ => self.chance.spread(0, 3_000_000),
        };
        let zones = settings.generation_zones as u64;
        NodeRow {
            name,
            generation_zone: if self.many_zones { self.chance.within(1, zones) as u32 } else { self.within(1, zones) },
            demand_zone: self.within(1, settings.demand_zones as u64),
            demand,
        }
    }

    fn circuit(&mut self, first: Name, second: Name) -> CircuitRow {
        let (first, second) = if self.chance.within(0, 1) == 0 { (first, second) } else { (second, first) };
        let mark =
            if self.taste == "marked circuits" { self.chance.within(0, 3) > 0 } else { self.chance.within(0, 4) == 0 };
        let cable = if self.chance.within(0, 3) == 0 { self.within(0, 500_000) / self.chance.of(&[1, 100]) } else { 0 };
        let row = CircuitRow {
            first,
            second,
            voltage: self.chance.of(&[132, 275, 400]),
            x: self.within(1, 10_000),
            overhead: self.within(0, 500_000),
            cable,
            mark: mark as u32,
            factor: 0,
        };
        let row = match self.taste == HALVES {
            true => self.halving_circuit(row),
            false => row,
        };
        match self.factors {
            true => self.circuit_with_factor(row),
            false => row,
        }
    }

    /// 02, CR 3: two circuits in three have a factor of their own, half of those at 320 or 525.
    fn circuit_with_factor(&mut self, row: CircuitRow) -> CircuitRow {
        let factor = match self.taste == HALVES {
            true => 500 * self.chance.within(2, 5) as u32,
            false => self.within(1_000, 30_000),
        };
        match self.chance.within(0, 5) {
            0 | 1 => row,
            2 => CircuitRow { voltage: 320, factor, ..row },
            3 => CircuitRow { voltage: 525, factor, ..row },
            _ => CircuitRow { factor, ..row },
        }
    }

    /// A few metres, marked or not; with one x for all, circuits side by side share their lengths evenly.
    fn halving_circuit(&mut self, row: CircuitRow) -> CircuitRow {
        let overhead = self.chance.within(1, 9) as u32;
        let mark = (self.chance.within(0, 2) == 0) as u32;
        CircuitRow { x: 100, overhead, cable: 0, mark, ..row }
    }

    fn station(&mut self, number: usize, node: Name) -> StationRow {
        let tec = match self.chance.within(0, 9) {
            0 => 0,
            _ if self.taste == "at the ends of ranges" => self.chance.of(&[0, 1, 20_000_000]),
            _ => self.chance.spread(1, 5_000_000),
        };
        let plant = self.chance.of(self.plants);
        StationRow { identifier: padded(format!("ST_{number}").as_bytes()), node, plant, tec }
    }
}

/// The plant types of a network.
fn plants(chance: &mut Chance, edition: Edition, taste: &str) -> &'static [u32] {
    match (edition, taste) {
        // One in three, so that nodes and zones of type 3 alone are no rarity.
        (Edition::One, _) => &[3, 3, 3, 1, 2, 4, 5, 6, 7],
        // No other types run at their whole TEC in both backgrounds.
        (Edition::Two, TEC_EQUAL | LEAST | GREATEST) => &[4, 7],
        (Edition::Two, FIXED_ALONE) => &[1, 2, 3, 5, 6],
        // Less may run year round, or at peak.
        (Edition::Two, AS_MUCH_AS_RUNS) => chance.of(&[&[2, 4, 5, 6, 7][..], &[2, 4, 5, 6, 7], &[1, 2, 3, 4, 7]]),
        (Edition::Two, _) => &[1, 1, 2, 3, 3, 4, 4, 5, 6, 7, 7],
    }
}

/// A node's name by its number, of any length from 2 to 12.
fn name(number: usize) -> Name {
    padded(format!("{}{number}", ["N", "LONG_NAME", "_", "9Z"][number % 4]).as_bytes())
}

/// A network of a shape and a taste with so many nodes, circuits in any order, solved.
pub fn network(chance: &mut Chance, shape: Shape, taste: &'static str, nodes: usize, form: Form) -> Case {
    if taste == HALVES && nodes <= 60 {
        network_of_halves(chance, shape, nodes, form)
    } else {
        drawn(chance, shape, taste, nodes, form)
    }
}

/// 02, CR 2: of four hundred networks a background the one with negative halves in the most places, before all in some of the rare
/// ones.
fn network_of_halves(chance: &mut Chance, shape: Shape, nodes: usize, form: Form) -> Case {
    let backgrounds = form.1.backgrounds().len();
    let first = drawn(chance, shape, HALVES, nodes.max(6), form);
    let halves = negative_halves(&first);
    let often = |place: usize| std::iter::repeat_n(place, halves[place].weight_in(form.1));
    let rare: Vec<usize> = (0..halves.len()).flat_map(often).collect();
    let wanted: Vec<usize> = (0..2 * backgrounds).map(|_| chance.of(&rare)).collect();
    let met = |case: &Case| {
        let halves = negative_halves(case);
        let count = |places: &[usize]| places.iter().filter(|place| halves[**place].met).count();
        (count(&wanted), count(&rare) + halves.iter().filter(|half| half.met).count())
    };
    let others = (1..400 * backgrounds).map(|_| drawn(chance, shape, HALVES, nodes.max(6), form));
    others.chain([first]).max_by_key(met).expect("one network and more")
}

/// One network by chance. In version 2 three in four have circuits with factors.
fn drawn(chance: &mut Chance, (_, shape): Shape, taste: &'static str, nodes: usize, form: Form) -> Case {
    let (version, edition) = form;
    let mut ends = shape(chance, nodes);
    // what reaches each node stands first
    ends.truncate(most_circuits(form));
    for place in (1..ends.len()).rev() {
        ends.swap(place, chance.within(0, place as u64) as usize);
    }
    let fewest = if taste == HALVES { nodes as u64 } else { 1 };
    let stations = if nodes == 256 { 512 } else { chance.within(fewest, 2 * nodes as u64) as usize };
    let factors = version == Version::Two && chance.within(0, 3) > 0;
    let plants = plants(chance, edition, taste);
    let many_zones = edition == Edition::Two && (nodes == 256 || chance.within(0, 1) == 0);
    let mut figures = Figures { chance, taste, edition, plants, factors, many_zones };
    let settings = figures.settings(nodes);
    let mut case = Case {
        version,
        edition,
        nodes: (0..nodes).map(|number| figures.node(name(number), &settings)).collect(),
        circuits: ends.into_iter().map(|(first, second)| figures.circuit(name(first), name(second))).collect(),
        stations: Vec::new(),
        runs: Default::default(),
        settings,
    };
    for number in 0..stations {
        let node = name(figures.chance.within(0, nodes as u64 - 1) as usize);
        case.stations.push(figures.station(number, node));
    }
    set_totals(chance, &mut case, taste);
    add_spurs(chance, &mut case, taste);
    if edition == Edition::Two {
        fit_demand(chance, &mut case, taste);
    }
    mended(chance, solved(&case).0)
}

/// Mostly, mends what stops a case that is solved: what is in doubt by no length, numbers out of range by less x or less length.
fn mended(chance: &mut Chance, mut case: Case) -> Case {
    let kept = chance.within(0, 7) == 0;
    for _ in 0..6 {
        match judge_case(&case.bytes(), case.lent()).err().map(|refusal| (refusal.number, refusal.system)) {
            Some((11 | 15, _)) if !kept => take_doubt_away(&mut case),
            Some((8, 1 | 4)) if !kept => case.circuits.iter_mut().for_each(|row| row.x = (row.x / 10).max(1)),
            Some((8, _)) if !kept => {
                case.circuits.iter_mut().for_each(|row| (row.overhead, row.cable) = (row.overhead / 10, row.cable / 10))
            }
            _ => break,
        }
        case = solved(&case).0;
    }
    case
}

/// No length for a circuit whose background or direction is in doubt.
fn take_doubt_away(case: &mut Case) {
    for place in 0..case.circuits.len() {
        if has_length(&case.circuits[place]) && Flows::of(case, place).doubt().is_some() {
            (case.circuits[place].overhead, case.circuits[place].cable) = (0, 0);
        }
    }
}

pub fn total_tec(case: &Case) -> u64 {
    case.stations.iter().map(|row| row.tec as u64).sum()
}

pub fn total_demand(case: &Case) -> u64 {
    case.nodes.iter().map(|row| row.demand as u64).sum()
}

/// Totals that 01 and 02 allow, by taste.
fn set_totals(chance: &mut Chance, case: &mut Case, taste: &str) {
    set_kilowatts(chance, case, taste);
    while total_tec(case) > 100_000_000 {
        case.stations.iter_mut().for_each(|row| row.tec /= 2);
    }
    if taste == ONE_KILOWATT {
        leave_one_kilowatt(chance, case);
    }
    if total_demand(case) == 0 {
        let last = case.nodes.len() - 1;
        case.nodes[last].demand = 1;
    }
    if total_tec(case) == 0 {
        case.stations[0].tec = 1;
    }
    while total_demand(case) > total_tec(case) {
        case.nodes.iter_mut().for_each(|row| row.demand /= 2);
    }
    if total_demand(case) == 0 {
        case.nodes[0].demand = 1;
    }
    if taste == TEC_EQUAL {
        spread_tec(case, total_demand(case));
    }
    let pays = |row: &StationRow| row.tec > 0 && row.plant != INTERCONNECTOR;
    if !case.stations.iter().any(pays) {
        let first = case.stations.iter_mut().find(|row| row.tec > 0);
        first.expect("total TEC is above zero").plant = chance.of(&PAYING);
    }
}

/// Demand and TEC of a taste, whatever their totals.
fn set_kilowatts(chance: &mut Chance, case: &mut Case, taste: &str) {
    match taste {
        "idle circuits" => {
            let kept = chance.within(0, case.nodes.len() as u64 - 1) as usize;
            case.nodes.iter_mut().enumerate().filter(|(place, _)| *place != kept).for_each(|(_, row)| row.demand = 0);
        }
        LEAST => {
            case.nodes.iter_mut().for_each(|row| row.demand = 0);
            case.stations.iter_mut().for_each(|row| row.tec = 0);
        }
        GREATEST if case.stations.len() >= 5 => {
            case.stations
                .iter_mut()
                .enumerate()
                .for_each(|(place, row)| row.tec = if place < 5 { 20_000_000 } else { 0 });
            if case.nodes.len() >= 5 {
                case.nodes
                    .iter_mut()
                    .enumerate()
                    .for_each(|(place, row)| row.demand = if place < 5 { 20_000_000 } else { 0 });
            }
        }
        HALVES => set_alike(chance, case),
        _ => (),
    }
}

/// 02, CR 2: few and equal kilowatts, so that averages are over few, with TEC equal to demand. In edition 2 what a station has that
/// does not run at its whole TEC in both backgrounds, the first one has too.
fn set_alike(chance: &mut Chance, case: &mut Case) {
    case.nodes.iter_mut().for_each(|row| row.demand = 0);
    case.stations.iter_mut().for_each(|row| row.tec = 0);
    let two = case.edition == Edition::Two;
    if two {
        case.stations[0].plant = 7;
    }
    for _ in 0..chance.of(&[2, 4, 8]) {
        let node = chance.within(0, case.nodes.len() as u64 - 1) as usize;
        case.nodes[node].demand += 100_000;
        let station = chance.within(0, case.stations.len() as u64 - 1) as usize;
        case.stations[station].tec += 100_000;
        if two && ![4, 7].contains(&case.stations[station].plant) {
            case.stations[0].tec += 100_000;
        }
    }
}

/// 02, CR 1: 1 kW of a type that pays, all else of type 3. In edition 2 that type runs at peak, and all else is 1 kW, since more of
/// type 3 would be more than demand.
fn leave_one_kilowatt(chance: &mut Chance, case: &mut Case) {
    case.stations.iter_mut().for_each(|row| row.plant = INTERCONNECTOR);
    let place = chance.within(0, case.stations.len() as u64 - 1) as usize;
    let mut paying = &PAYING[..];
    if case.edition == Edition::Two {
        case.stations.iter_mut().for_each(|row| row.tec = 0);
        let other = (place + 1) % case.stations.len();
        case.stations[other].tec = 1;
        paying = &PAYING[1..];
    }
    (case.stations[place].plant, case.stations[place].tec) = (chance.of(paying), 1);
}

/// Gives the stations so much TEC in all, the first ones first. False where they cannot hold it.
pub fn spread_tec(case: &mut Case, total: u64) -> bool {
    let mut left = total;
    for row in &mut case.stations {
        row.tec = left.min(20_000_000) as u32;
        left -= row.tec as u64;
    }
    left == 0
}
