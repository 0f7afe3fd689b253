//! What each node supplies to the base system of a background.

use super::totals::{total, MOST};

/// Whether totals are in their range, what is fixed not above demand, and variable TEC enough for what remains.
fn runnable(fixed: u64, variable: u64, demand: u64) -> bool {
    demand <= MOST && variable <= MOST && fixed <= demand && demand <= fixed + variable
}

/// The shares of a demand, rounded down, and the missing kilowatts one each to the first nodes with something over; nothing of no demand.
fn shared(tec: &[u64], demand: u64, total: u64) -> [u64; 256] {
    let mut scaled = [0; 256];
    if demand == 0 {
        return scaled;
    }
    let mut missing = demand;
    for kw in tec {
        missing -= kw * demand / total;
    }
    let mut before = 0;
    for (kw, scaled) in tec.iter().zip(&mut scaled) {
        let product = kw * demand;
        let over = (product % total != 0) as u64;
        *scaled = product / total + if before < missing { over } else { 0 };
        before += over;
    }
    scaled
}

/// A million times what is fixed and what runs of the variable TEC, less demand.
pub fn base_supply(fixed: &[u64], variable: &[u64], demand: &[u64]) -> [i64; 256] {
    let mut supply = [0; 256];
    let (least, most, wanted) = (total(fixed), total(variable), total(demand));
    if runnable(least, most, wanted) {
        let scaled = shared(variable, wanted - least, most);
        for v in 0..demand.len() {
            supply[v] = 1_000_000 * ((fixed[v] + scaled[v]) as i64 - demand[v] as i64);
        }
    }
    supply
}
