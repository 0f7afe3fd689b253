//! The case file judged: refusals 1 to 7 and 13.

use super::columns::{own_factor, Columns, Settings, Stations};
use super::fields::{key_at, name_at, name_formed, repeated, u32_at};
use super::walk::unreached;
use crate::answer::{refused, Answer};

type Judged = Result<(), Answer>;

fn refuse(number: u64, row: usize) -> Judged {
    Err(refused(number, 0, row))
}

/// Circuits and stations are judged with what was read of them, and answered for in their turn.
pub fn judge(file: &[u8], c: &Columns, s: &Stations, runs: [usize; 3]) -> Judged {
    let (circuit, station) = (circuits(file, c), stations(file, c, s));
    if !c.whole || runs.iter().any(|run| *run != c.nodes + c.circuits) {
        return refuse(1, 0);
    }
    if !sound_settings(&c.settings, c.nodes) {
        return refuse(2, 0);
    }
    nodes(file, c)?;
    circuit?;
    station?;
    reach(c)?;
    totals(c)?;
    chargeable(c)
}

fn sound_settings(s: &Settings, nodes: usize) -> bool {
    (1..=32).contains(&s.generation_zones)
        && (1..=32).contains(&s.demand_zones)
        && s.p <= 1000
        && (1..=10_000).contains(&s.constant)
        && (1000..=5000).contains(&s.wider_factor)
        && (1000..=5000).contains(&s.local_factor)
        && s.factors[0] == 1000
        && s.factors[1..].iter().all(|factor| (1000..=30_000).contains(factor))
        && (1..=nodes).contains(&s.reference)
        && s.revenue <= 10_000_000_000
}

fn sound_node(file: &[u8], at: usize, s: &Settings) -> bool {
    name_formed(name_at(file, at))
        && (1..=s.generation_zones).contains(&u32_at(file, at + 12))
        && (1..=s.demand_zones).contains(&u32_at(file, at + 16))
        && u32_at(file, at + 20) <= 20_000_000
}

fn nodes(file: &[u8], c: &Columns) -> Judged {
    let unsound = (0..c.nodes).find(|v| !sound_node(file, 64 + 24 * v, &c.settings)).unwrap_or(c.nodes);
    let row = unsound.min(repeated(file, 64, 24, c.nodes));
    if row < c.nodes {
        return refuse(3, row + 1);
    }
    Ok(())
}

/// 0 means by voltage, and 320 and 525 have no factor there.
fn sound_factor(voltage: usize, own: usize) -> bool {
    match voltage {
        132 | 275 | 400 => own == 0 || (1000..=30_000).contains(&own),
        320 | 525 => (1000..=30_000).contains(&own),
        _ => false,
    }
}

fn sound_circuit(file: &[u8], at: usize, c: &Columns, first: usize, second: usize) -> bool {
    name_formed(name_at(file, at))
        && name_formed(name_at(file, at + 12))
        && first < c.nodes
        && second < c.nodes
        && key_at(file, at) != key_at(file, at + 12)
        && sound_factor(u32_at(file, at + 24), own_factor(file, at, c.circuit_size))
        && (1..=10_000).contains(&u32_at(file, at + 28))
        && u32_at(file, at + 32) <= 500_000
        && u32_at(file, at + 36) <= 500_000
        && u32_at(file, at + 40) <= 1
}

fn circuits(file: &[u8], c: &Columns) -> Judged {
    for i in 0..c.circuits {
        if !sound_circuit(file, 64 + 24 * c.nodes + c.circuit_size * i, c, c.first[i], c.second[i]) {
            return refuse(4, i + 1);
        }
    }
    Ok(())
}

fn sound_station(file: &[u8], at: usize, nodes: usize, node: usize) -> bool {
    name_formed(name_at(file, at))
        && name_formed(name_at(file, at + 12))
        && node < nodes
        && (1..=7).contains(&u32_at(file, at + 24))
        && u32_at(file, at + 28) <= 20_000_000
}

fn stations(file: &[u8], c: &Columns, s: &Stations) -> Judged {
    let start = 64 + 24 * c.nodes + c.circuit_size * c.circuits;
    let sound = |k: usize| sound_station(file, start + 32 * k, c.nodes, s.node[k]);
    let unsound = (0..c.stations).find(|k| !sound(*k)).unwrap_or(c.stations);
    let row = unsound.min(repeated(file, start, 32, c.stations));
    if row < c.stations {
        return refuse(5, row + 1);
    }
    Ok(())
}

fn reach(c: &Columns) -> Judged {
    match unreached(c) {
        Some(node) => refuse(6, node + 1),
        None => Ok(()),
    }
}

fn totals(c: &Columns) -> Judged {
    let demand: u64 = c.demand[..c.nodes].iter().sum();
    let tec: u64 = c.scaling[..c.nodes].iter().sum();
    let range = 1..=100_000_000;
    if range.contains(&demand) && range.contains(&tec) && demand <= tec {
        return Ok(());
    }
    refuse(7, 0)
}

fn chargeable(c: &Columns) -> Judged {
    if c.paying[..c.nodes].iter().any(|kw| *kw > 0) {
        return Ok(());
    }
    refuse(13, 0)
}
