//! 01, 6 and 7: nodes out of reach, totals. 02, CR 1, 13: no chargeable TEC. 02, CR 5, 14: generation that does not meet demand.

use super::{any, Faults};
use crate::backgrounds::{set_demand, Running, PEAK, YEAR_ROUND};
use crate::networks::{spread_tec, total_demand, total_tec, PAYING};
use reference::file::{padded, Case, Edition, Name, StationRow};
use reference::tables::INTERCONNECTOR;

pub fn add(list: &mut Faults) {
    add_reach(list);
    add_totals(list);
    add_chargeable(list);
    list.only(Edition::Two, add_generation);
}

fn add_reach(list: &mut Faults) {
    list.case(6, 0, "a node without circuits", |case, chance| {
        let place = any(chance, case.nodes.len()).filter(|place| *place != reference(case))?;
        (case.nodes.len() > 2 && !case.circuits.is_empty()).then(|| move_circuits(case, place, reference(case)))?;
        Some(place as u64 + 1)
    });
    list.case(6, 0, "the reference without circuits", |case, _| {
        let other = first_other(case)?;
        (case.nodes.len() > 2 && !case.circuits.is_empty()).then(|| move_circuits(case, reference(case), other))?;
        Some(other as u64 + 1)
    });
    list.case(6, 0, "no circuits at all", |case, _| {
        let nodes = case.nodes.len();
        case.circuits.clear();
        case.own_runs_mut().iter_mut().for_each(|run| run.truncate(nodes));
        Some(first_other(case)? as u64 + 1)
    });
}

fn add_totals(list: &mut Faults) {
    list.case(7, 0, "total demand 0", |case, _| {
        case.nodes.iter_mut().for_each(|row| row.demand = 0);
        Some(0)
    });
    list.case(7, 0, "total demand above 100,000,000", |case, chance| {
        let most = chance.of(&[1, 20_000_000]);
        let rows = case.nodes.iter_mut().enumerate();
        rows.for_each(|(place, row)| row.demand = [20_000_000, most, 0][(place > 4) as usize + (place > 5) as usize]);
        (case.nodes.len() > 5).then_some(0)
    });
    list.case(7, 0, "total TEC 0", |case, _| {
        case.stations.iter_mut().for_each(|row| row.tec = 0);
        Some(0)
    });
    list.case(7, 0, "no stations", |case, _| {
        case.stations.clear();
        Some(0)
    });
    list.case(7, 0, "total TEC above 100,000,000", |case, _| {
        let rows = case.stations.iter_mut().enumerate();
        rows.for_each(|(place, row)| row.tec = [20_000_000, 1, 0][(place > 4) as usize + (place > 5) as usize]);
        (case.stations.len() > 5).then_some(0)
    });
    list.case(7, 0, "total TEC one below total demand", |case, _| {
        let total = total_demand(case);
        (total > 1 && spread_tec(case, total - 1)).then_some(0)
    });
}

/// 13: the totals stay within 01's ranges, and all kilowatts are of type 3.
fn add_chargeable(list: &mut Faults) {
    list.case(13, 0, "type 3 alone", |case, _| {
        make_all_links(case);
        Some(0)
    });
    list.case(13, 0, "type 3, and other types with 0 kW", |case, chance| {
        make_all_links(case);
        case.stations.iter_mut().filter(|row| row.tec == 0).for_each(|row| row.plant = chance.of(&PAYING));
        let identifier = padded(format!("NONE_{}", case.stations.len()).as_bytes());
        let node = case.nodes[any(chance, case.nodes.len())?].name;
        case.stations.push(StationRow { identifier, node, plant: chance.of(&PAYING), tec: 0 });
        (case.stations.len() <= 512).then_some(0)
    });
    list.case(13, 0, "type 3 alone, total TEC equal to total demand", |case, _| {
        make_all_links(case);
        spread_tec(case, total_demand(case)).then_some(0)
    });
    list.case(13, 0, "type 3 alone, total TEC 100,000,000", |case, _| {
        make_all_links(case);
        spread_tec(case, 100_000_000).then_some(0)
    });
}

/// 14: demand out of what one background lets pass, while the other and 7 do.
fn add_generation(list: &mut Faults) {
    list.case(14, 0, "fixed one kilowatt above demand", |case, _| {
        let year_round = Running::of(case, YEAR_ROUND);
        refused_demand(case, year_round.fixed.checked_sub(1)?)
    });
    list.case(14, 0, "fixed above demand", |case, chance| {
        let year_round = Running::of(case, YEAR_ROUND);
        refused_demand(case, any(chance, year_round.fixed as usize)? as u64)
    });
    list.case(14, 0, "variable one kilowatt too small year round", |case, _| {
        let [year_round, peak] = [YEAR_ROUND, PEAK].map(|scaling| Running::of(case, scaling));
        let demand = year_round.most() + 1;
        (demand <= peak.most()).then(|| refused_demand(case, demand))?
    });
    list.case(14, 0, "variable one kilowatt too small at peak", |case, _| {
        let [year_round, peak] = [YEAR_ROUND, PEAK].map(|scaling| Running::of(case, scaling));
        let demand = peak.most() + 1;
        (year_round.fixed <= demand && demand <= year_round.most()).then(|| refused_demand(case, demand))?
    });
    list.case(14, 0, "variable too small in both", |case, _| {
        let [year_round, peak] = [YEAR_ROUND, PEAK].map(|scaling| Running::of(case, scaling));
        let demand = total_tec(case).min(100_000_000);
        (year_round.most() < demand && peak.most() < demand).then(|| refused_demand(case, demand))?
    });
    list.case(14, 0, "nothing that runs at peak", |case, chance| {
        case.stations.iter_mut().for_each(|row| row.plant = chance.of(&[1, 3]));
        let paying = case.stations.iter_mut().find(|row| row.tec > 0)?;
        paying.plant = 1;
        Some(0)
    });
}

/// Sets a total demand that 7 lets pass and 14 does not.
fn refused_demand(case: &mut Case, demand: u64) -> Option<u64> {
    let lawful = (1..=total_tec(case).min(100_000_000)).contains(&demand);
    (lawful && set_demand(case, demand)).then_some(0)
}

fn make_all_links(case: &mut Case) {
    case.stations.iter_mut().for_each(|row| row.plant = INTERCONNECTOR);
}

/// The reference's place, from 0.
fn reference(case: &Case) -> usize {
    case.settings.reference as usize - 1
}

/// The lowest node beside the reference.
fn first_other(case: &Case) -> Option<usize> {
    (0..case.nodes.len()).find(|place| *place != reference(case))
}

/// Moves every circuit of a node to another one; a circuit between the two goes to a third. So all others still reach one another.
fn move_circuits(case: &mut Case, from: usize, to: usize) {
    let third = (0..case.nodes.len()).find(|place| *place != from && *place != to).expect("three nodes");
    let [from, to, third] = [from, to, third].map(|place| case.nodes[place].name);
    for row in &mut case.circuits {
        let other = |end: Name| if end == to { third } else { to };
        if row.first == from {
            row.first = other(row.second);
        } else if row.second == from {
            row.second = other(row.first);
        }
    }
}
