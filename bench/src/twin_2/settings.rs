//! The settings, and refusal 2.

use super::fields::{u32_at, u64_at};

pub struct Settings {
    pub generation_zones: usize,
    pub demand_zones: usize,
    pub p: u64,
    pub constant: i64,
    pub wider_factor: i64,
    pub local_factor: i64,
    /// 400 overhead, 400 cable, 275 overhead, 275 cable, 132 overhead, 132 cable.
    pub factors: [usize; 6],
    pub reference: usize,
    pub revenue: u64,
}

impl Settings {
    pub fn of(file: &[u8]) -> Settings {
        let at = |offset| u32_at(file, offset);
        Settings {
            generation_zones: at(0),
            demand_zones: at(4),
            p: at(8) as u64,
            constant: at(12) as i64,
            wider_factor: at(16) as i64,
            local_factor: at(20) as i64,
            factors: [at(24), at(28), at(32), at(36), at(40), at(44)],
            reference: at(48),
            revenue: u64_at(file, 56),
        }
    }

    /// Whether each is in its range; the reference is a row of the nodes' table.
    pub fn sound(&self, nodes: usize) -> bool {
        (1..=32).contains(&self.generation_zones)
            && (1..=32).contains(&self.demand_zones)
            && self.p <= 1000
            && (1..=10_000).contains(&self.constant)
            && (1000..=5000).contains(&self.wider_factor)
            && (1000..=5000).contains(&self.local_factor)
            && self.factors[0] == 1000
            && self.factors[1..].iter().all(|factor| (1000..=30_000).contains(factor))
            && (1..=nodes).contains(&self.reference)
            && self.revenue <= 10_000_000_000
    }
}
