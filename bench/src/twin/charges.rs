//! Steps 6 to 10: metres, C, tariffs, incomes and residuals.

use super::columns::Columns;

#[derive(Clone, Copy, Default)]
pub struct ZoneFigures {
    pub weight: u64,
    pub metres: i64,
    pub after_c: i64,
    pub tariff: i64,
    pub total: i64,
}

pub struct SideFigures {
    pub zones: usize,
    pub residual: i64,
    pub remainder: i64,
    pub zone: [ZoneFigures; 32],
}

#[derive(Clone, Copy, Default)]
pub struct LocalFigures {
    pub tec: u64,
    pub metres: i64,
    pub tariff: i64,
}

pub struct Figures {
    pub c: i64,
    pub generation: SideFigures,
    pub demand: SideFigures,
    pub nodes: usize,
    pub local: [LocalFigures; 256],
}

/// What a zone's nodes add up to: kilowatts that weigh, metres times those, and kilowatts that pay.
#[derive(Clone, Copy, Default)]
struct ZoneSums {
    weight: u64,
    weighed: i64,
    paying: u64,
}

/// The zones of a side; over them, metres times the kilowatts that pay, and those kilowatts.
struct Zones {
    count: usize,
    sums: [ZoneSums; 32],
    metres: i64,
    total: u64,
}

/// The columns of a side: each node's zone, the kilowatts that weigh and that pay, and 1 or -1 for its metres.
struct Side<'a> {
    zones: usize,
    zone: &'a [usize],
    weight: &'a [u64],
    paying: &'a [u64],
    sign: i64,
}

fn nearest(z: i64, d: u64) -> i64 {
    if d == 0 {
        return 0;
    }
    let d = d as i64;
    let (whole, left) = (z / d, (z % d).abs());
    whole + z.signum() * (left >= d - left) as i64
}

fn metres(potential: i64) -> i64 {
    nearest(potential, 1_000_000_000)
}

fn tariff(metres: i64, constant: usize, factor: usize) -> i64 {
    nearest(metres * constant as i64 * factor as i64, 100_000)
}

impl ZoneSums {
    fn metres(&self) -> i64 {
        nearest(self.weighed, self.weight)
    }
}

/// The sums of each zone, in one pass over the nodes.
fn sums_by_zone(side: &Side, wider: &[i64]) -> [ZoneSums; 32] {
    let mut sums = [ZoneSums::default(); 32];
    for v in 0..side.zone.len() {
        let zone = &mut sums[side.zone[v] - 1];
        zone.weight += side.weight[v];
        zone.weighed += side.sign * metres(wider[v]) * side.weight[v] as i64;
        zone.paying += side.paying[v];
    }
    sums
}

fn zones_of(side: &Side, wider: &[i64]) -> Zones {
    let sums = sums_by_zone(side, wider);
    let (mut metres, mut total) = (0, 0);
    for zone in &sums[..side.zones] {
        metres += zone.metres() * zone.paying as i64;
        total += zone.paying;
    }
    Zones { count: side.zones, sums, metres, total }
}

fn c_of(p: u64, generation: &Zones, demand: &Zones) -> i64 {
    let q = 1000 - p;
    let above = q as i64 * demand.metres - p as i64 * generation.metres;
    nearest(above, p * generation.total + q * demand.total)
}

fn local_by_node(case: &Columns, local: &[i64]) -> [LocalFigures; 256] {
    let mut lines = [LocalFigures::default(); 256];
    for v in 0..case.nodes {
        let metres = metres(local[v]);
        let tariff = tariff(metres, case.settings.constant, case.settings.local_factor);
        lines[v] = LocalFigures { tec: case.scaling[v], metres, tariff };
    }
    lines
}

fn side_figures(case: &Columns, zones: &Zones, shift: i64, target: i64) -> SideFigures {
    let settings = &case.settings;
    let tariff_of = |zone: &ZoneSums| tariff(zone.metres() + shift, settings.constant, settings.wider_factor);
    let mut income = 0;
    for zone in &zones.sums[..zones.count] {
        income += tariff_of(zone) * zone.paying as i64;
    }
    let rest = target - income;
    let residual = rest.div_euclid(zones.total as i64);
    let mut lines = [ZoneFigures::default(); 32];
    for k in 0..zones.count {
        let zone = &zones.sums[k];
        let (metres, tariff) = (zone.metres(), tariff_of(zone));
        lines[k] =
            ZoneFigures { weight: zone.weight, metres, after_c: metres + shift, tariff, total: tariff + residual };
    }
    SideFigures { zones: zones.count, residual, remainder: rest - residual * zones.total as i64, zone: lines }
}

pub fn figures(case: &Columns, wider: &[i64], local: &[i64]) -> Figures {
    let (n, settings) = (case.nodes, &case.settings);
    let generation = Side {
        zones: settings.generation_zones,
        zone: &case.generation_zone[..n],
        weight: &case.scaling[..n],
        paying: &case.paying[..n],
        sign: 1,
    };
    let demand = Side {
        zones: settings.demand_zones,
        zone: &case.demand_zone[..n],
        weight: &case.demand[..n],
        paying: &case.demand[..n],
        sign: -1,
    };
    let up = zones_of(&generation, wider);
    let down = zones_of(&demand, wider);
    let p = settings.p as u64;
    let c = c_of(p, &up, &down);
    let lines = local_by_node(case, local);
    let income: i64 = (0..n).map(|v| lines[v].tariff * case.paying[v] as i64).sum();
    let target = |share: u64| (settings.revenue * share * 1000) as i64;
    Figures {
        c,
        generation: side_figures(case, &up, c, target(1000 - p) - income),
        demand: side_figures(case, &down, -c, target(p)),
        nodes: n,
        local: lines,
    }
}
