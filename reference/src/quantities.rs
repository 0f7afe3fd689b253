//! 01 "Quantities": the units that may not stand for one another, the ranges, and the two roundings, of which 02, CR 2
//! changes one.

/// 01 "Quantities": kilowatts, of demand, of TEC, of scaled generation and of net.
#[derive(Clone, Copy, Debug, Default, PartialEq, Eq, PartialOrd, Ord)]
pub struct Kw(pub i128);

/// 01 "Quantities": whole metres of marginal distance.
#[derive(Clone, Copy, Debug, Default, PartialEq, Eq, PartialOrd, Ord)]
pub struct Metres(pub i128);

/// 01 "Quantities": whole micro-pounds per kilowatt.
#[derive(Clone, Copy, Debug, Default, PartialEq, Eq, PartialOrd, Ord)]
pub struct MicroPerKw(pub i128);

/// 01 "Quantities", table: rows of nodes.
pub const NODES: (u32, u32) = (1, 256);
/// 01 "Quantities", table: rows of circuits and rows of stations.
pub const CIRCUITS: (u32, u32) = (0, 512);
pub const STATIONS: (u32, u32) = (0, 512);
/// 02, CR 3: "Version 2 holds at most 480 circuits".
pub const CIRCUITS_VERSION_2: (u32, u32) = (0, 480);
/// 02, CR 5: "in version 2 files of at most 320 circuits".
pub const CIRCUITS_EDITION_2: (u32, u32) = (0, 320);
/// 01 "Quantities", table: generation and demand zones, each.
pub const ZONES: (u32, u32) = (1, 32);
/// 01 "Quantities", table: demand of a node and TEC of a station, kW.
pub const ROW_KW: (u32, u32) = (0, 20_000_000);
/// 01 "Quantities", table: total demand and total TEC, kW.
pub const TOTAL_KW: (i128, i128) = (1, 100_000_000);
/// 01 "Quantities", table: reactance x, in 0.01%.
pub const REACTANCE: (u32, u32) = (1, 10_000);
/// 01 "Quantities", table: overhead and cable length, m, each.
pub const LENGTH: (u32, u32) = (0, 500_000);
/// 01 "Quantities", table: expansion factor in thousandths, but 400 kV overhead. 02, CR 3: a circuit's own factor.
pub const EXPANSION: (u32, u32) = (1_000, 30_000);
/// 01 "Quantities", table: "400 kV overhead is 1,000 only".
pub const EXPANSION_400_OVERHEAD: (u32, u32) = (1_000, 1_000);
/// 01 "Quantities", table: demand share p, thousandths.
pub const SHARE: (u32, u32) = (0, 1_000);
/// 01 "Quantities", table: expansion constant, pence/MWkm.
pub const CONSTANT: (u32, u32) = (1, 10_000);
/// 01 "Quantities", table: wider and local security factor, thousandths.
pub const SECURITY: (u32, u32) = (1_000, 5_000);
/// 01 "Quantities", table: allowed revenue, pounds.
pub const REVENUE: (u64, u64) = (0, 10_000_000_000);
/// 01 "Quantities", table: greatest magnitude of a proposed flow, in every system.
pub const FLOW_LIMIT: i128 = 100_000_000_000_000;
/// 01 "Quantities", table: greatest magnitude of a base potential.
pub const BASE_POTENTIAL_LIMIT: i128 = 2_000_000_000_000_000_000;
/// 01 "Quantities", table: greatest magnitude of a wider or local potential, nm.
pub const POTENTIAL_LIMIT: i128 = 10_000_000_000_000_000;
/// 01 step 2: the greatest sum of the magnitudes of misses.
pub const MISSES_LIMIT: i128 = 100_000_000;
/// 01 step 4: a base flow of at most this magnitude is idle, mW.
pub const IDLE_FLOW: i128 = 200_000_000;
/// 01 step 4: a base flow of more than this magnitude is directed, mW.
pub const DIRECTED_FLOW: i128 = 400_000_000;
/// 02, CR 5: a year round flow not greater in magnitude than peak's by more than this counts for peak, mW.
pub const PEAK_LEAD: i128 = 400_000_000;
/// 02, CR 5: a year round flow greater in magnitude than peak's by more than this counts for year round, mW.
pub const YEAR_ROUND_LEAD: i128 = 800_000_000;

/// 02, CR 6: "each plant type's load factor, 0 to 1,000 thousandths".
pub const LOAD_FACTOR: (u32, u32) = (0, 1_000);

/// 01 "Quantities": a number lies within its range, both ends included.
pub fn within<T: PartialOrd>(number: T, range: (T, T)) -> bool {
    range.0 <= number && number <= range.1
}

/// 01 "Quantities": "Nearest means nearest whole number". 02, CR 2: "Nearest now always sends a half away from zero": the
/// magnitude is rounded with a half going up, and has the number's sign. The divisor is above zero.
pub fn nearest(number: i128, divisor: i128) -> i128 {
    assert!(divisor > 0);
    let magnitude = rounded_down(2 * number.abs() + divisor, 2 * divisor);
    number.signum() * magnitude
}

/// 01 steps 1 and 10: "rounded down (also below zero)". 02, CR 2: "Residuals are still rounded down". The divisor is
/// above zero.
pub fn rounded_down(number: i128, divisor: i128) -> i128 {
    assert!(divisor > 0);
    number.div_euclid(divisor)
}
