//! 01 steps 2 to 5 and "What stops a case", 8 to 11: what a proposed solution of a system has to be. 02, CR 5: base and
//! wider for each background of the edition, and 15.

use crate::background::{Background, LOCAL_SYSTEM};
use crate::charges::net;
use crate::file::{Edition, RUNS};
use crate::quantities::*;
use crate::refusal::Refusal;
use crate::tables::{Circuit, Tables};

/// 01 step 2: one system of equations, "proved once over supply and offset".
#[derive(Clone, Debug)]
pub struct System {
    /// 1 base, 2 wider, 3 local; of edition 2 year round's, and 4 peak base, 5 peak wider.
    pub number: u32,
    pub potential_limit: i128,
    /// Of each node.
    pub supply: Vec<i128>,
    /// Of each circuit.
    pub offset: Vec<i128>,
}

/// 01 step 4: which way a circuit runs for the marginal distances.
#[derive(Clone, Copy, Debug, PartialEq, Eq)]
pub enum Direction {
    WithoutLength,
    Idle,
    InDoubt,
    FirstToSecond,
    SecondToFirst,
}

/// 01 step 4, 02 CR 5: a circuit's length as the marginal distances count it.
#[derive(Clone, Copy, Debug, PartialEq, Eq)]
pub struct Length {
    /// The background that it counts for; "year round if marked".
    pub background: Background,
    /// nm, with the sign of the flow there, or 0 when idle.
    pub signed: i128,
}

/// 01 step 3: "Base solution: flow in mW, offset 0, supply 1,000,000 times the net kW", of a background.
pub fn base_system(tables: &Tables, background: Background) -> System {
    System {
        number: background.base_system(),
        potential_limit: BASE_POTENTIAL_LIMIT,
        supply: net(tables, background).iter().map(|kw| 1_000_000 * kw.0).collect(),
        offset: vec![0; tables.circuits.len()],
    }
}

/// 01 step 5: "Wider solution: supply 0, offset the signed length of circuits without local mark, 0 for others". 02, CR 5:
/// a length "stands in its wider solution only".
pub fn wider_system(tables: &Tables, background: Background, lengths: &[Length]) -> System {
    let counted = |circuit: &Circuit, length: &Length| !circuit.local && length.background == background;
    length_system(background.wider_system(), tables, lengths, counted)
}

/// 01 step 5: "Local solution: the same with the mark turned round".
pub fn local_system(tables: &Tables, lengths: &[Length]) -> System {
    length_system(LOCAL_SYSTEM, tables, lengths, |circuit, _| circuit.local)
}

/// 01 step 5: supply 0, offset the signed length of the circuits that count.
fn length_system(
    number: u32,
    tables: &Tables,
    lengths: &[Length],
    counts: impl Fn(&Circuit, &Length) -> bool,
) -> System {
    let offset = |(circuit, length): (&Circuit, &Length)| if counts(circuit, length) { length.signed } else { 0 };
    System {
        number,
        potential_limit: POTENTIAL_LIMIT,
        supply: vec![0; tables.nodes.len()],
        offset: tables.circuits.iter().zip(lengths).map(offset).collect(),
    }
}

/// 01 step 3, 02 CR 5: the base systems in the order they are judged.
pub fn base_systems(tables: &Tables) -> Vec<System> {
    tables.edition.backgrounds().iter().map(|background| base_system(tables, *background)).collect()
}

/// 01 step 5, 02 CR 5: the systems behind the directions in the order they are judged: wider ones, then local.
pub fn length_systems(tables: &Tables, lengths: &[Length]) -> Vec<System> {
    let wider = tables.edition.backgrounds().iter().map(|background| wider_system(tables, *background, lengths));
    wider.chain([local_system(tables, lengths)]).collect()
}

/// 01 "What stops a case", order: 8, 9, 10 for one system.
pub fn judge_system(tables: &Tables, system: &System, run: &[i64]) -> Result<(), Refusal> {
    let refused = |number, row: usize| Refusal { number, system: system.number, row: row as u32 };
    if let Some(place) = lowest_out_of_range(tables, system, run) {
        return Err(refused(8, place + 1));
    }
    if let Some(place) = lowest_unbalanced(tables, system, run) {
        return Err(refused(9, place + 1));
    }
    if misses(tables, system, run) > MISSES_LIMIT {
        return Err(refused(10, 0));
    }
    Ok(())
}

/// 01 "What stops a case", 8: the lowest place (from 0, "circuits after nodes") of "a proposed number out of range,
/// or reference potential not 0".
fn lowest_out_of_range(tables: &Tables, system: &System, run: &[i64]) -> Option<usize> {
    let nodes = tables.nodes.len();
    run.iter().enumerate().position(|(place, number)| {
        let limit = if place < nodes { system.potential_limit } else { FLOW_LIMIT };
        (*number as i128).abs() > limit || (place == tables.reference && *number != 0)
    })
}

/// 01 step 2 and "What stops a case", 9: the lowest node (from 0) where "flow out less flow in" isn't the supply.
fn lowest_unbalanced(tables: &Tables, system: &System, run: &[i64]) -> Option<usize> {
    let flows = &run[tables.nodes.len()..];
    let mut out_less_in = vec![0i128; tables.nodes.len()];
    for (circuit, flow) in tables.circuits.iter().zip(flows) {
        out_less_in[circuit.first] += *flow as i128;
        out_less_in[circuit.second] -= *flow as i128;
    }
    out_less_in.iter().zip(&system.supply).position(|(out_less_in, supply)| out_less_in != supply)
}

/// 01 step 2: "potential at the first node, less potential at the second, less x times flow, less offset".
pub fn miss(circuit: &Circuit, potentials: &[i64], flow: i64, offset: i128) -> i128 {
    potentials[circuit.first] as i128 - potentials[circuit.second] as i128 - circuit.x * flow as i128 - offset
}

/// 01 step 2: "The sum of the magnitudes of misses".
pub fn misses(tables: &Tables, system: &System, run: &[i64]) -> i128 {
    let (potentials, flows) = run.split_at(tables.nodes.len());
    let rows = tables.circuits.iter().zip(flows).zip(&system.offset);
    rows.map(|((circuit, flow), offset)| miss(circuit, potentials, *flow, *offset).abs()).sum()
}

/// 01 step 4: "A circuit with a length above zero is idle at a base flow of magnitude up to 200,000,000, directed
/// above 400,000,000, and in doubt between".
pub fn direction(circuit: &Circuit, base_flow: i64) -> Direction {
    match circuit.expanded_length {
        0 => Direction::WithoutLength,
        _ => flow_direction(base_flow),
    }
}

/// 01 step 4: the direction of a circuit with a length.
pub fn flow_direction(base_flow: i64) -> Direction {
    let flow = base_flow as i128;
    if flow.abs() <= IDLE_FLOW {
        Direction::Idle
    } else if flow.abs() <= DIRECTED_FLOW {
        Direction::InDoubt
    } else if flow > 0 {
        Direction::FirstToSecond
    } else {
        Direction::SecondToFirst
    }
}

/// 01 step 4: "Its signed length in nm is 1,000,000 times the expanded length, with the base flow's sign, or 0 when
/// idle". A circuit in doubt has none; the judgement stops before asking.
pub fn signed_length(circuit: &Circuit, base_flow: i64) -> i128 {
    match direction(circuit, base_flow) {
        Direction::FirstToSecond => 1_000_000 * circuit.expanded_length,
        Direction::SecondToFirst => -1_000_000 * circuit.expanded_length,
        Direction::WithoutLength | Direction::Idle | Direction::InDoubt => 0,
    }
}

/// The base flow of a circuit, by its place, in a background.
fn base_flow(tables: &Tables, runs: [&[i64]; RUNS], background: Background, place: usize) -> i64 {
    runs[background.base_system() as usize - 1][tables.nodes.len() + place]
}

/// 02, CR 5: the background of a circuit by its flows: "An unmarked circuit with a length counts for year round when its
/// flow there is greater in magnitude by more than 800,000,000 mW, for peak when it isn't greater by more than 400,000,000;
/// between these it is in doubt", and `None`. "marked circuits use year round alone"; without a length it is all one.
pub fn counted_background(circuit: &Circuit, year_round: i64, peak: i64) -> Option<Background> {
    let lead = (year_round as i128).abs() - (peak as i128).abs();
    if circuit.local || circuit.expanded_length == 0 || lead > YEAR_ROUND_LEAD {
        Some(Background::YearRound)
    } else if lead <= PEAK_LEAD {
        Some(Background::Peak)
    } else {
        None
    }
}

/// 02, CR 5: the background that a circuit, by its place, counts for; `None` in doubt. Edition 1 has one for all.
pub fn background_of(tables: &Tables, runs: [&[i64]; RUNS], place: usize) -> Option<Background> {
    let flow = |background| base_flow(tables, runs, background, place);
    match tables.edition {
        Edition::One => Some(Background::Single),
        Edition::Two => {
            let circuit = &tables.circuits[place];
            counted_background(circuit, flow(Background::YearRound), flow(Background::Peak))
        }
    }
}

/// 01 step 4, 02 CR 5: a circuit's direction in a background.
pub fn direction_in(tables: &Tables, runs: [&[i64]; RUNS], background: Background, place: usize) -> Direction {
    direction(&tables.circuits[place], base_flow(tables, runs, background, place))
}

/// 02, CR 5: "15, system 0, circuit row, which background in doubt": the background of every circuit, or the lowest circuit
/// in doubt.
pub fn judge_backgrounds(tables: &Tables, runs: [&[i64]; RUNS]) -> Result<Vec<Background>, Refusal> {
    let in_doubt = |place: usize| Refusal { number: 15, system: 0, row: place as u32 + 1 };
    let counted = |place| background_of(tables, runs, place).ok_or(in_doubt(place));
    (0..tables.circuits.len()).map(counted).collect()
}

/// 01 "What stops a case", 11: the lengths, or the lowest circuit whose direction is in doubt. 02, CR 5: "11, with the
/// system whose flow is in doubt, lowest circuit", all of 15 before it.
pub fn judge_directions(tables: &Tables, runs: [&[i64]; RUNS]) -> Result<Vec<Length>, Refusal> {
    let backgrounds = judge_backgrounds(tables, runs)?;
    for (place, background) in backgrounds.into_iter().enumerate() {
        if direction_in(tables, runs, background, place) == Direction::InDoubt {
            return Err(Refusal { number: 11, system: background.base_system(), row: place as u32 + 1 });
        }
    }
    Ok(lengths(tables, runs))
}

/// 01 step 4, 02 CR 5: the length of every circuit. One in doubt about its background is taken for year round, one in doubt
/// of its direction as idle; the judgement stops before asking.
pub fn lengths(tables: &Tables, runs: [&[i64]; RUNS]) -> Vec<Length> {
    let length = |(place, circuit): (usize, &Circuit)| {
        let background = background_of(tables, runs, place).unwrap_or(Background::YearRound);
        Length { background, signed: signed_length(circuit, base_flow(tables, runs, background, place)) }
    };
    tables.circuits.iter().enumerate().map(length).collect()
}
