//! Steps 6 and 7: what the zones of a background's two sides add up to.

use super::numbers::within;
use super::quotients::{metres, nearest};
use super::totals::MOST;

/// No distance is of more metres.
pub const MOST_METRES: i64 = 10_000_000;

#[derive(Clone, Copy)]
pub enum Side {
    Generation,
    Demand,
}

/// What a zone's nodes add up to: kilowatts that weigh, distances times those, and kilowatts that pay.
#[derive(Clone, Copy, Default)]
pub struct ZoneSums {
    pub weight: u64,
    pub weighed: i64,
    pub paying: u64,
}

impl ZoneSums {
    pub fn metres(&self) -> i64 {
        nearest(self.weighed, self.weight)
    }
}

/// Zones 1 to count of a side; over them, metres times the kilowatts that pay, and those kilowatts.
pub struct Zones {
    pub count: usize,
    pub sums: [ZoneSums; 32],
    pub metres: i64,
    pub paying: u64,
}

/// The columns of a side: each node's zone, the kilowatts that weigh and those that pay.
pub struct Columns<'a> {
    pub side: Side,
    pub count: usize,
    pub zone: &'a [usize; 256],
    pub weight: &'a [u64; 256],
    pub paying: &'a [u64; 256],
}

impl Columns<'_> {
    /// The sums of each zone, in one pass over the nodes, by their wider potentials.
    fn sums_by_zone(&self, wider: &[i64]) -> [ZoneSums; 32] {
        let mut sums = [ZoneSums::default(); 32];
        for (v, potential) in wider.iter().enumerate() {
            let distance = match self.side {
                Side::Generation => metres(*potential),
                Side::Demand => -metres(*potential),
            };
            let (zone, weight, paying) = (self.zone[v], self.weight[v], self.paying[v]);
            if (1..=32).contains(&zone) && weight <= MOST && paying <= MOST && within(distance, MOST_METRES) {
                let sums = &mut sums[zone - 1];
                sums.weight += weight;
                sums.weighed += distance * weight as i64;
                sums.paying += paying;
            }
        }
        sums
    }

    pub fn zones(&self, wider: &[i64]) -> Zones {
        let sums = self.sums_by_zone(wider);
        let (mut metres, mut paying) = (0, 0);
        for zone in &sums[..self.count] {
            metres += zone.metres() * zone.paying as i64;
            paying += zone.paying;
        }
        Zones { count: self.count, sums, metres, paying }
    }
}

/// Step 8: C of a background.
pub fn c_of(p: u64, generation: &Zones, demand: &Zones) -> i64 {
    let q = 1000 - p;
    let above = q as i64 * demand.metres - p as i64 * generation.metres;
    nearest(above, p * generation.paying + q * demand.paying)
}
