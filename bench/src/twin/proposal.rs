//! Proposed solutions judged once over supply and offset: refusals 8 to 11.

use super::columns::Columns;
use crate::answer::{refused, Answer};

type Judged = Result<(), Answer>;

const BASE_LIMIT: i64 = 2_000_000_000_000_000_000;
const LIMIT: i64 = 10_000_000_000_000_000;
const FLOW_LIMIT: i64 = 100_000_000_000_000;

pub fn judge(c: &Columns, base: &[i64], wider: &[i64], local: &[i64]) -> Judged {
    system(c, 1, BASE_LIMIT, &base_supply(c), &[0; 512], base)?;
    directions(c, base)?;
    system(c, 2, LIMIT, &[0; 256], &offsets(c, 0, base), wider)?;
    system(c, 3, LIMIT, &[0; 256], &offsets(c, 1, base), local)
}

/// Scaled generation less demand, a million times.
fn base_supply(c: &Columns) -> [i64; 256] {
    let demand: u64 = c.demand[..c.nodes].iter().sum();
    let tec: u64 = c.scaling[..c.nodes].iter().sum();
    let mut missing = demand;
    for v in 0..c.nodes {
        missing -= c.scaling[v] * demand / tec;
    }
    let mut supply = [0; 256];
    for v in 0..c.nodes {
        let product = c.scaling[v] * demand;
        let mut scaled = product / tec;
        if product % tec != 0 && missing > 0 {
            scaled += 1;
            missing -= 1;
        }
        supply[v] = 1_000_000 * (scaled as i64 - c.demand[v] as i64);
    }
    supply
}

/// The signed lengths of the circuits with this mark.
fn offsets(c: &Columns, mark: u64, base: &[i64]) -> [i64; 512] {
    let mut offset = [0; 512];
    for i in 0..c.circuits {
        if c.mark[i] == mark {
            let flow = base[c.nodes + i];
            let nm = 1_000_000 * c.length[i] as i64;
            offset[i] = if flow > 400_000_000 {
                nm
            } else if flow < -400_000_000 {
                -nm
            } else {
                0
            };
        }
    }
    offset
}

fn system(c: &Columns, number: u64, limit: i64, supply: &[i64; 256], offset: &[i64; 512], run: &[i64]) -> Judged {
    let reference = c.settings.reference - 1;
    for (i, z) in run.iter().enumerate() {
        let most = if i >= c.nodes {
            FLOW_LIMIT
        } else if i == reference {
            0
        } else {
            limit
        };
        if !(-most..=most).contains(z) {
            return Err(refused(8, number, i + 1));
        }
    }
    let net = net_flows(c, run);
    for v in 0..c.nodes {
        if net[v] != supply[v] {
            return Err(refused(9, number, v + 1));
        }
    }
    if misses_low(c, offset, run) {
        return Ok(());
    }
    Err(refused(10, number, 0))
}

fn net_flows(c: &Columns, run: &[i64]) -> [i64; 256] {
    let mut net = [0; 256];
    for i in 0..c.circuits {
        let flow = run[c.nodes + i];
        net[c.first[i]] += flow;
        net[c.second[i]] -= flow;
    }
    net
}

fn misses_low(c: &Columns, offset: &[i64; 512], run: &[i64]) -> bool {
    let mut total = 0;
    for i in 0..c.circuits {
        let drop = c.x[i] as i64 * run[c.nodes + i];
        let miss = run[c.first[i]] - run[c.second[i]] - drop - offset[i];
        total += miss.unsigned_abs();
        if total > 100_000_000 {
            return false;
        }
    }
    true
}

fn directions(c: &Columns, base: &[i64]) -> Judged {
    for i in 0..c.circuits {
        let flow = base[c.nodes + i].unsigned_abs();
        if c.length[i] > 0 && flow > 200_000_000 && flow <= 400_000_000 {
            return Err(refused(11, 1, i + 1));
        }
    }
    Ok(())
}
