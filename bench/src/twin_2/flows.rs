//! The arithmetic over circuits that all systems share.

use super::circuits::Circuits;
use super::editions::{Background, Edition, System};
use super::numbers::{direction_of, within, Direction, Heading, FLOW_LIMIT};

/// The most that misses may sum to.
const MOST_MISSES: u64 = 100_000_000;

/// What the judges of proposed solutions need of a case; peak's supply is 0 in edition 1.
pub struct Case<'a> {
    pub edition: Edition,
    pub nodes: usize,
    pub reference: usize,
    pub circuits: &'a Circuits,
    pub supply: [i64; 256],
    pub peak_supply: [i64; 256],
}

/// A number of a run, or 0 past its end.
fn number_at(run: &[i64], i: usize) -> i64 {
    run.get(i).copied().unwrap_or(0)
}

fn add_at(net: &mut [i64; 256], node: usize, flow: i64) {
    if let Some(net) = net.get_mut(node) {
        *net += flow;
    }
}

/// 9: flow out less flow in at each node, in one walk over the circuits.
pub fn net_flows(case: &Case, run: &[i64]) -> [i64; 256] {
    let ends = case.circuits.first.iter().zip(&case.circuits.second);
    let mut net = [0; 256];
    for ((first, second), flow) in ends.zip(&run[case.nodes..]) {
        let flow = if within(*flow, FLOW_LIMIT) { *flow } else { 0 };
        add_at(&mut net, *first, flow);
        add_at(&mut net, *second, -flow);
    }
    net
}

/// The magnitude of a miss, more than is allowed where a number is out of its range.
fn miss_size(p: i64, q: i64, x: u64, flow: i64, offset: i64) -> u64 {
    let limit = System::Base(Background::YearRound).limit();
    if within(p, limit)
        && within(q, limit)
        && x <= 10_000
        && within(flow, FLOW_LIMIT)
        && within(offset, 30_000_000_000_000_000)
    {
        return (p - q - x as i64 * flow - offset).unsigned_abs();
    }
    MOST_MISSES + 1
}

/// 10: whether the misses are low. It stops above their limit, so that the sum never wraps.
pub fn misses_low(case: &Case, offset: &[i64; 512], run: &[i64]) -> bool {
    let circuits = case.circuits;
    let mut total = 0;
    for (c, flow) in run[case.nodes..].iter().enumerate() {
        let p = number_at(run, circuits.first[c]);
        let q = number_at(run, circuits.second[c]);
        total += miss_size(p, q, circuits.x[c], *flow, offset[c]);
        if total > MOST_MISSES {
            return false;
        }
    }
    true
}

/// The heading of each circuit.
pub fn headings(case: &Case, base: &[i64], peak_base: &[i64]) -> [Heading; 512] {
    let mut all = [Heading::NONE; 512];
    for (c, flow) in base[case.nodes..].iter().enumerate() {
        let peak = number_at(peak_base, case.nodes + c);
        all[c] = Heading::of(case.edition, case.circuits.mark[c], *flow, peak);
    }
    all
}

/// A circuit's length in nm with the sign of its own base flow, or 0 when idle.
fn signed_length(length: u64, flow: i64) -> i64 {
    if length > 30_000_000_000 {
        return 0;
    }
    let nm = (1_000_000 * length) as i64;
    match direction_of(flow) {
        Direction::Forward => nm,
        Direction::Backward => -nm,
        Direction::Idle | Direction::InDoubt => 0,
    }
}

/// Its signed length in the system of its mark and background, nothing in another.
fn offset_of(system: System, length: u64, mark: u64, heading: Heading) -> i64 {
    let stands = match system {
        System::Base(_) => false,
        System::Wider(background) => mark == 0 && heading.counting.background() == background,
        System::Local => mark != 0,
    };
    if stands {
        return signed_length(length, heading.flow);
    }
    0
}

/// The offset of each circuit in a system.
pub fn offsets(system: System, case: &Case, headings: &[Heading; 512]) -> [i64; 512] {
    let Circuits { length, mark, .. } = case.circuits;
    let mut offset = [0; 512];
    for c in 0..512 {
        offset[c] = offset_of(system, length[c], mark[c], headings[c]);
    }
    offset
}
