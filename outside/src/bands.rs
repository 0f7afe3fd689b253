//! 01 step 4, 02 CR 5: what a circuit's base flows say of it, from the documents' words, and flows moved to the edges of the bands.

use crate::faults::misses_pass;
use reference::file::{Case, CircuitRow, Edition};
use reference::random::Chance;
use std::ops::RangeInclusive;

/// 01 step 4: the magnitudes, in mW, at which a direction is in doubt.
const DIRECTION_IN_DOUBT: RangeInclusive<i128> = 200_000_001..=400_000_000;
/// 02, CR 5: by how many mW the year round flow is greater in magnitude where the background is in doubt.
const BACKGROUND_IN_DOUBT: RangeInclusive<i128> = 400_000_001..=800_000_000;

/// Systems 1 and 4: base, which is year round's in edition 2, and peak base.
pub const BASE: u64 = 1;
pub const PEAK_BASE: u64 = 4;

/// Number and system of a refusal as 11 or 15.
pub type Doubt = (u64, u64);

/// A circuit's base flows in mW, and what else decides between them.
#[derive(Clone, Copy)]
pub struct Flows {
    pub edition: Edition,
    pub marked: bool,
    /// Of system 1, in edition 1 too.
    pub year_round: i64,
    /// Of system 4; 0 in edition 1.
    pub peak: i64,
}

impl Flows {
    /// Of a circuit by its place, from 0.
    pub fn of(case: &Case, place: usize) -> Flows {
        let flow = |system: u64| *case.runs[system as usize - 1].get(case.nodes.len() + place).unwrap_or(&0);
        let marked = case.circuits[place].mark == 1;
        Flows { edition: case.edition, marked, year_round: flow(BASE), peak: flow(PEAK_BASE) }
    }

    /// By how much the year round flow is greater in magnitude.
    pub fn lead(self) -> i128 {
        (self.year_round as i128).abs() - (self.peak as i128).abs()
    }

    pub fn lead_is_in_doubt(self) -> bool {
        BACKGROUND_IN_DOUBT.contains(&self.lead())
    }

    /// The system whose flow decides on the direction; none where the background is in doubt.
    pub fn deciding(self) -> Option<u64> {
        if self.edition == Edition::One || self.marked || self.lead() > *BACKGROUND_IN_DOUBT.end() {
            Some(BASE)
        } else {
            (!self.lead_is_in_doubt()).then_some(PEAK_BASE)
        }
    }

    /// The flow in a system.
    pub fn flow(self, system: u64) -> i64 {
        if system == BASE {
            self.year_round
        } else {
            self.peak
        }
    }

    /// Whether a length would be refused as 11 or as 15.
    pub fn doubt(self) -> Option<Doubt> {
        let Some(system) = self.deciding() else { return Some((15, 0)) };
        flow_is_in_doubt(self.flow(system)).then_some((11, system))
    }

    /// What a length counts for: the system that decides, and -1, 0 or 1 for backward, idle, forward. No doubt is left.
    pub fn counted(self) -> (u64, i64) {
        let system = self.deciding().unwrap_or_default();
        let flow = self.flow(system);
        (system, if flow_is_idle(flow) { 0 } else { flow.signum() })
    }
}

/// 01 step 4: a flow that leaves a direction in doubt.
pub fn flow_is_in_doubt(flow: i64) -> bool {
    DIRECTION_IN_DOUBT.contains(&(flow as i128).abs())
}

/// 01 step 4: a flow that leaves a circuit idle.
pub fn flow_is_idle(flow: i64) -> bool {
    (flow as i128).abs() < *DIRECTION_IN_DOUBT.start()
}

pub fn has_length(row: &CircuitRow) -> bool {
    row.overhead > 0 || row.cable > 0
}

/// A place where a band begins or ends.
#[derive(Clone, Copy)]
pub enum Edge {
    /// The year round flow of an unmarked circuit is greater in magnitude by so many mW.
    Lead(i64),
    /// The flow that decides is of this system and has this magnitude.
    Flow(u64, i64),
}

/// The edges that are accepted, each beside one of `REFUSED`.
pub const ACCEPTED: [(&str, Edge); 6] = [
    ("a base flow of 200,000,000 mW that decides", Edge::Flow(BASE, 200_000_000)),
    ("a base flow of 400,000,001 mW that decides", Edge::Flow(BASE, 400_000_001)),
    ("a peak flow of 200,000,000 mW that decides", Edge::Flow(PEAK_BASE, 200_000_000)),
    ("a peak flow of 400,000,001 mW that decides", Edge::Flow(PEAK_BASE, 400_000_001)),
    ("a year round flow greater by 400,000,000 mW", Edge::Lead(400_000_000)),
    ("a year round flow greater by 800,000,001 mW", Edge::Lead(800_000_001)),
];

/// The edges that are refused, and how.
pub const REFUSED: [(&str, Edge, Doubt); 6] = [
    ("a base flow of 200,000,001 mW", Edge::Flow(BASE, 200_000_001), (11, BASE)),
    ("a base flow of 400,000,000 mW", Edge::Flow(BASE, 400_000_000), (11, BASE)),
    ("a peak flow of 200,000,001 mW", Edge::Flow(PEAK_BASE, 200_000_001), (11, PEAK_BASE)),
    ("a peak flow of 400,000,000 mW", Edge::Flow(PEAK_BASE, 400_000_000), (11, PEAK_BASE)),
    ("a year round flow greater by 400,000,001 mW", Edge::Lead(400_000_001), (15, 0)),
    ("a year round flow greater by 800,000,000 mW", Edge::Lead(800_000_000), (15, 0)),
];

impl Edge {
    /// The system whose flow is moved to bring a circuit there, and the flow.
    fn wanted(self, flows: Flows) -> (u64, i64) {
        let with_sign = |system: u64, size: i64| (system, if flows.flow(system) < 0 { -size } else { size });
        match self {
            Edge::Lead(lead) => with_sign(BASE, lead + flows.peak.abs()),
            Edge::Flow(system, size) => with_sign(system, size),
        }
    }

    /// Whether a circuit with these flows is judged by this edge.
    fn judges(self, flows: Flows) -> bool {
        match self {
            Edge::Lead(_) => flows.edition == Edition::Two && !flows.marked,
            Edge::Flow(system, _) => flows.deciding() == Some(system),
        }
    }
}

/// A case with a circuit brought to an edge and nothing else changed in what it counts for, and the circuit's place: accepted as it
/// was, or refused as is asked for.
pub fn at_edge(case: &Case, edge: Edge, doubt: Option<Doubt>, chance: &mut Chance) -> Option<(Case, usize)> {
    let count = case.circuits.len();
    let first = chance.within(0, count.max(1) as u64 - 1) as usize;
    (0..count).map(|step| (first + step) % count).find_map(|place| {
        let (moved, twin) = with_flow(case, place, edge.wanted(Flows::of(case, place)))?;
        let (before, after) = (|place| Flows::of(case, place), |place| Flows::of(&moved, place));
        let stays = |place| after(place).doubt().is_none() && after(place).counted() == before(place).counted();
        let as_asked = if doubt.is_some() { after(place).doubt() == doubt } else { stays(place) };
        let fits = edge.judges(after(place)) && as_asked && (stays(twin) || !has_length(&case.circuits[twin]));
        let system = edge.wanted(before(place)).0 as usize - 1;
        (fits && misses_pass(&moved, system)).then_some((moved, place))
    })
}

/// Gives a circuit with a length a flow in a system, and what it had more to another circuit between the same nodes, so that balance
/// stays: the case, and the other circuit's place. Nothing where that brings the misses past their limit on its own.
fn with_flow(case: &Case, place: usize, (system, flow): (u64, i64)) -> Option<(Case, usize)> {
    let row = &case.circuits[place];
    let ends = |row: &CircuitRow| (row.first.min(row.second), row.first.max(row.second));
    let twin = (0..case.circuits.len()).find(|other| *other != place && ends(&case.circuits[*other]) == ends(row))?;
    let other = &case.circuits[twin];
    let more = flow - Flows::of(case, place).flow(system);
    let misses = (more as i128).abs() * (row.x + other.x) as i128;
    if !has_length(row) || misses > 100_000_000 || system as usize > case.edition.runs() {
        return None;
    }
    let (mut case, start) = (case.clone(), case.nodes.len());
    let turned = row.first != other.first;
    let run = &mut case.runs[system as usize - 1];
    run[start + place] += more;
    run[start + twin] -= if turned { -more } else { more };
    Some((case, twin))
}
