//! 02, CR 5: the backgrounds of edition 2, from the documents' words: what is fixed and what may run, and demand between them.

use crate::networks::{
    total_demand, AS_MUCH_AS_RUNS, FIXED_ALONE, GREATEST, HALVES, LEAST, NOTHING_REMAINS, TEC_EQUAL,
};
use crate::spurs::is_spur;
use reference::file::{Case, Name};
use reference::random::Chance;
use std::collections::BTreeMap;

/// The table in 14.15.7: of each plant type the percentage that it is fixed at; none where it is variable.
pub type Scaling = [Option<u64>; 7];
pub const YEAR_ROUND: Scaling = [Some(70), Some(85), Some(100), None, Some(50), Some(0), None];
pub const PEAK: Scaling = [Some(0), None, Some(0), None, None, None, None];

/// The plant types that do not run at peak: year round they are fixed, and so may be more than peak has.
const NEVER_AT_PEAK: [u32; 2] = [1, 3];

/// The greatest demand of a node.
const MOST: u64 = 20_000_000;

/// What 14 goes by in one background, kW.
#[derive(Clone, Copy, PartialEq, Eq)]
pub struct Running {
    pub fixed: u64,
    /// The TEC of the variable types.
    pub variable: u64,
}

impl Running {
    /// "fixed types run at their percentage of TEC per node and type, rounded down", and the TEC of the others.
    pub fn of(case: &Case, scaling: Scaling) -> Running {
        let mut running = Running { fixed: 0, variable: 0 };
        for ((_, plant), tec) in tec_by_node_and_type(case) {
            match scaling[plant as usize - 1] {
                Some(percent) => running.fixed += tec * percent / 100,
                None => running.variable += tec,
            }
        }
        running
    }

    /// The most demand that 14 lets pass.
    pub fn most(self) -> u64 {
        self.fixed + self.variable
    }
}

/// The TEC of each node and plant type.
pub fn tec_by_node_and_type(case: &Case) -> BTreeMap<(Name, u32), u64> {
    let mut sums = BTreeMap::new();
    case.stations.iter().for_each(|row| *sums.entry((row.node, row.plant)).or_default() += row.tec as u64);
    sums
}

/// 14: demand between what is fixed and what may run in both backgrounds, by taste at an end; with less of the types that do not run
/// at peak, and some of one that does, until there is room.
pub fn fit_demand(chance: &mut Chance, case: &mut Case, taste: &str) {
    for _ in 0..32 {
        let (low, high) = lawful_demand(case);
        if low <= high {
            let demand = chosen_demand(chance, taste, (low, high), total_demand(case));
            set_demand(case, demand);
            return;
        }
        let rows = case.stations.iter_mut().filter(|row| !is_spur(&row.node));
        rows.filter(|row| NEVER_AT_PEAK.contains(&row.plant)).for_each(|row| row.tec /= 2);
        let first = &mut case.stations[0];
        (first.plant, first.tec) = (if taste == FIXED_ALONE { 2 } else { 7 }, first.tec.max(10_000));
    }
}

/// The least and the greatest total demand that 7 and 14 let pass and that the nodes can have.
fn lawful_demand(case: &Case) -> (u64, u64) {
    let [year_round, peak] = [YEAR_ROUND, PEAK].map(|scaling| Running::of(case, scaling));
    let (spurs, others) = demands(case);
    let room = spurs + MOST * others.len() as u64;
    let most = year_round.most().min(peak.most()).min(100_000_000).min(room);
    (year_round.fixed.max(peak.fixed).max(spurs).max(1), most)
}

/// A demand from low to high.
fn chosen_demand(chance: &mut Chance, taste: &str, (low, high): (u64, u64), now: u64) -> u64 {
    match taste {
        LEAST | NOTHING_REMAINS | FIXED_ALONE => low,
        TEC_EQUAL | GREATEST => high,
        AS_MUCH_AS_RUNS => (high - chance.of(&[0, 1, 1])).max(low),
        HALVES if (low..=high).contains(&now) => now,
        _ => match chance.within(0, 9) {
            0 => low,
            1 => high,
            2 => (low + 1).min(high),
            3 => high.saturating_sub(1).max(low),
            _ => chance.within(low, high),
        },
    }
}

/// The spur's demand, and that of the other nodes.
fn demands(case: &Case) -> (u64, Vec<u64>) {
    let of = |spur: bool| {
        let rows = case.nodes.iter().filter(move |row| is_spur(&row.name) == spur);
        rows.map(|row| row.demand as u64)
    };
    (of(true).sum(), of(false).collect())
}

/// So much demand in all: a spur keeps its own, and the other nodes share the rest as they share it now. False where they cannot.
pub fn set_demand(case: &mut Case, total: u64) -> bool {
    let (spurs, others) = demands(case);
    let old: u64 = others.iter().sum();
    let Some(rest) = total.checked_sub(spurs).filter(|rest| *rest <= MOST * others.len() as u64) else { return false };
    let mut left = rest;
    for (row, demand) in case.nodes.iter_mut().filter(|row| !is_spur(&row.name)).zip(&others) {
        row.demand = (demand * rest).checked_div(old).unwrap_or(0).min(MOST) as u32;
        left -= row.demand as u64;
    }
    for row in case.nodes.iter_mut().filter(|row| !is_spur(&row.name)) {
        let more = left.min(MOST - row.demand as u64);
        row.demand += more as u32;
        left -= more;
    }
    true
}
