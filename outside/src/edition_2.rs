//! 02, CR 5: what an accepted case may have of edition 2, by name, and whether it has it.

use crate::backgrounds::{tec_by_node_and_type, Running, Scaling, PEAK, YEAR_ROUND};
use crate::bands::{flow_is_idle, flow_is_in_doubt, has_length, Flows, BASE, PEAK_BASE};
use crate::networks::total_demand;
use reference::file::{Case, Edition, Name};
use std::collections::{BTreeMap, BTreeSet};

/// A name, and whether it was met.
type Feature = (&'static str, bool);

/// Everything of edition 2.
pub fn of_edition_2(case: &Case) -> Vec<Feature> {
    let lists =
        [of_counts(case), of_types(case), of_scaling(case), of_rounding(case), of_circuits(case), of_marks(case)];
    let two = case.edition == Edition::Two;
    lists.into_iter().flatten().map(|(name, met)| (name, two && met)).collect()
}

fn of_counts(case: &Case) -> Vec<Feature> {
    vec![
        ("edition 2", true),
        ("edition 2 and no circuits", case.circuits.is_empty()),
        ("edition 2 and 320 circuits", case.circuits.len() == 320),
        ("edition 2, 256 nodes and 512 stations", case.nodes.len() == 256 && case.stations.len() == 512),
    ]
}

/// Plant types, and zones of those that pay nothing at peak.
fn of_types(case: &Case) -> Vec<Feature> {
    let types: BTreeSet<u32> = case.stations.iter().filter(|row| row.tec > 0).map(|row| row.plant).collect();
    let has = |plant: u32| types.contains(&plant);
    let zones = zones_by_types(case);
    let zone = |of: &[u32]| zones.values().any(|types| types.iter().eq(of));
    vec![
        ("edition 2, TEC of type 1", has(1)),
        ("edition 2, TEC of type 2", has(2)),
        ("edition 2, TEC of type 3", has(3)),
        ("edition 2, TEC of type 4", has(4)),
        ("edition 2, TEC of type 5", has(5)),
        ("edition 2, TEC of type 6", has(6)),
        ("edition 2, TEC of type 7", has(7)),
        ("edition 2, TEC of all types", types.len() == 7),
        ("edition 2, a zone of type 1 alone", zone(&[1])),
        ("edition 2, a zone of types 1 and 3 alone", zone(&[1, 3])),
        ("edition 2, TEC of type 1 and p 0", has(1) && case.settings.p == 0),
        ("edition 2, TEC of type 1 and p 1,000", has(1) && case.settings.p == 1_000),
    ]
}

/// Of each generation zone with TEC the plant types that it is of.
pub fn zones_by_types(case: &Case) -> BTreeMap<u32, BTreeSet<u32>> {
    let zones: BTreeMap<Name, u32> = case.nodes.iter().map(|row| (row.name, row.generation_zone)).collect();
    let mut types: BTreeMap<u32, BTreeSet<u32>> = BTreeMap::new();
    for row in case.stations.iter().filter(|row| row.tec > 0) {
        types.entry(zones[&row.node]).or_default().insert(row.plant);
    }
    types
}

/// What remains for the variable types, at the ends that 14 lets pass.
fn of_scaling(case: &Case) -> Vec<Feature> {
    let demand = total_demand(case);
    let [year_round, peak] = [YEAR_ROUND, PEAK].map(|scaling| Running::of(case, scaling));
    let remains = demand.saturating_sub(year_round.fixed);
    vec![
        ("edition 2, fixed equal to demand", remains == 0 && year_round.variable > 0),
        ("edition 2, fixed equal to demand and nothing variable", remains == 0 && year_round.variable == 0),
        ("edition 2, one kilowatt remains", remains == 1),
        ("edition 2, variable equal to what remains", remains > 0 && remains == year_round.variable),
        ("edition 2, variable one kilowatt more than what remains", remains > 0 && remains + 1 == year_round.variable),
        ("edition 2, variable equal to demand at peak", demand == peak.variable),
        ("edition 2, variable one kilowatt more than demand at peak", demand + 1 == peak.variable),
        ("edition 2, something remains in both", remains > 0 && year_round.fixed > 0),
    ]
}

/// Where another way of adding up and rounding would give other kilowatts.
fn of_rounding(case: &Case) -> Vec<Feature> {
    let percent = |plant: u32| YEAR_ROUND[plant as usize - 1];
    let rounded = |((_, plant), tec): (&(Name, u32), &u64)| percent(*plant).is_some_and(|of| tec * of % 100 > 0);
    let of_rows = case.stations.iter().map(|row| row.tec as u64 * percent(row.plant).unwrap_or(0) / 100);
    let together = Running::of(case, YEAR_ROUND).fixed;
    let [year_round, peak] = [YEAR_ROUND, PEAK].map(|scaling| Sharing::of(case, scaling));
    vec![
        ("edition 2, a fixed type rounded down", tec_by_node_and_type(case).iter().any(rounded)),
        ("edition 2, stations of a fixed type that alone round down to less", of_rows.sum::<u64>() < together),
        ("edition 2, kilowatts missing year round", year_round.missing),
        ("edition 2, kilowatts missing at peak", peak.missing),
        ("edition 2, shared by node and type it were other kilowatts, year round", year_round.differs_by_type),
        ("edition 2, shared by node and type it were other kilowatts, at peak", peak.differs_by_type),
    ]
}

/// What is met where the variable types share what remains.
struct Sharing {
    /// A division left something over.
    missing: bool,
    /// Shares of each node and type would add up to other kilowatts at some node.
    differs_by_type: bool,
}

impl Sharing {
    fn of(case: &Case, scaling: Scaling) -> Sharing {
        let running = Running::of(case, scaling);
        let remains = total_demand(case).saturating_sub(running.fixed);
        let sums = tec_by_node_and_type(case);
        let variable = || (1..=7).filter(|plant| scaling[*plant as usize - 1].is_none());
        let tec = |node: Name| variable().map(|plant| sums.get(&(node, plant)).copied().unwrap_or(0)).collect();
        let by_type: Vec<Vec<u64>> = case.nodes.iter().map(|row| tec(row.name)).collect();
        let by_node: Vec<u64> = by_type.iter().map(|types| types.iter().sum()).collect();
        let shares = shared(&by_type.concat(), remains);
        let others = shares.chunks(variable().count()).map(|types| types.iter().sum::<u64>());
        Sharing {
            missing: by_node.iter().any(|tec| tec * remains % running.variable.max(1) > 0),
            differs_by_type: !others.eq(shared(&by_node, remains)),
        }
    }
}

/// 01 step 1: shares rounded down, and the kilowatts still missing to the first whose division left something over.
fn shared(tec: &[u64], remains: u64) -> Vec<u64> {
    let total = tec.iter().sum::<u64>().max(1);
    let mut missing = remains - tec.iter().map(|tec| tec * remains / total).sum::<u64>().min(remains);
    let share = |tec: &u64| {
        let one = missing > 0 && tec * remains % total > 0;
        missing -= one as u64;
        tec * remains / total + one as u64
    };
    tec.iter().map(share).collect()
}

/// The flows of the circuits with a length and without a mark, and of those with neither.
fn of_circuits(case: &Case) -> Vec<Feature> {
    let unmarked = |length: bool| {
        let places = (0..case.circuits.len()).filter(move |place| has_length(&case.circuits[*place]) == length);
        places.map(|place| Flows::of(case, place)).filter(|flows| !flows.marked).collect::<Vec<Flows>>()
    };
    let (with, without) = (unmarked(true), unmarked(false));
    let any =
        |counted: (u64, i64), of: fn(&Flows) -> bool| with.iter().any(|flows| flows.counted() == counted && of(flows));
    let either = |system: u64, of: fn(&Flows) -> bool| any((system, 1), of) || any((system, -1), of);
    let opposite = |flows: &Flows| flows.year_round.signum() * flows.peak.signum() < 0;
    vec![
        ("edition 2, a circuit for year round, forward", any((BASE, 1), |_| true)),
        ("edition 2, a circuit for year round, backward", any((BASE, -1), |_| true)),
        ("edition 2, a circuit for peak, forward", any((PEAK_BASE, 1), |_| true)),
        ("edition 2, a circuit for peak, backward", any((PEAK_BASE, -1), |_| true)),
        ("edition 2, a circuit for peak, idle", any((PEAK_BASE, 0), |_| true)),
        ("edition 2, circuits for year round and for peak", either(BASE, |_| true) && either(PEAK_BASE, |_| true)),
        ("edition 2, for year round, its flows opposite", either(BASE, opposite)),
        ("edition 2, for peak, its flows opposite", either(PEAK_BASE, opposite)),
        ("edition 2, for year round, its peak flow in doubt", either(BASE, |flows| flow_is_in_doubt(flows.peak))),
        (
            "edition 2, for peak, its year round flow in doubt",
            either(PEAK_BASE, |flows| flow_is_in_doubt(flows.year_round)),
        ),
        ("edition 2, for peak, its year round flow idle", either(PEAK_BASE, |flows| flow_is_idle(flows.year_round))),
        (
            "edition 2, idle at peak, its year round flow in doubt",
            any((PEAK_BASE, 0), |flows| flow_is_in_doubt(flows.year_round)),
        ),
        (
            "edition 2, idle at peak, its year round flow above 400,000,000",
            any((PEAK_BASE, 0), |flows| flows.year_round.abs() > 400_000_000),
        ),
        ("edition 2, for peak, year round's flow greater", either(PEAK_BASE, |flows| flows.lead() > 0)),
        ("edition 2, for peak, its flows equal", either(PEAK_BASE, |flows| flows.lead() == 0)),
        ("edition 2, for peak, its flow there greater", either(PEAK_BASE, |flows| flows.lead() < 0)),
        ("edition 2, no length and a background in doubt", without.iter().any(|flows| flows.doubt() == Some((15, 0)))),
    ]
}

/// The flows of the marked circuits with a length: "marked circuits use year round alone".
fn of_marks(case: &Case) -> Vec<Feature> {
    let places = (0..case.circuits.len()).filter(|place| has_length(&case.circuits[*place]));
    let marked: Vec<Flows> = places.map(|place| Flows::of(case, place)).filter(|flows| flows.marked).collect();
    let any = |of: fn(&Flows) -> bool| marked.iter().any(of);
    vec![
        ("edition 2, a marked circuit, forward", any(|flows| flows.counted().1 == 1)),
        ("edition 2, a marked circuit, backward", any(|flows| flows.counted().1 == -1)),
        ("edition 2, a marked circuit, idle", any(|flows| flows.counted().1 == 0)),
        (
            "edition 2, a marked circuit that unmarked were in doubt of its background",
            any(|flows| flows.lead_is_in_doubt()),
        ),
        (
            "edition 2, a marked circuit that unmarked were for peak",
            any(|flows| flows.lead() <= 400_000_000 && flows.counted().1 != 0),
        ),
        ("edition 2, a marked circuit, its peak flow in doubt", any(|flows| flow_is_in_doubt(flows.peak))),
        (
            "edition 2, a marked circuit, idle, its peak flow above 400,000,000",
            any(|flows| flows.counted().1 == 0 && flows.peak.abs() > 400_000_000),
        ),
    ]
}
