//! 01 "Quantities" and "What stops a case", 2: every setting at the ends of its range and one past them.

use super::bases::{all_kinds, kiln};
use super::List;
use crate::file::{Case, Settings};

/// A setting's place as 64 bits: the change of it.
type Setting = fn(&mut Settings, u64);

/// The settings but the reference row, with the ends of their ranges.
const RANGES: [(&str, Setting, u64, u64); 13] = [
    ("generation zones", |settings, number| settings.generation_zones = number as u32, 1, 32),
    ("demand zones", |settings, number| settings.demand_zones = number as u32, 1, 32),
    ("p", |settings, number| settings.p = number as u32, 0, 1_000),
    ("constant", |settings, number| settings.constant = number as u32, 1, 10_000),
    ("wider factor", |settings, number| settings.wider_factor = number as u32, 1_000, 5_000),
    ("local factor", |settings, number| settings.local_factor = number as u32, 1_000, 5_000),
    ("400 overhead", |settings, number| settings.factors[0] = number as u32, 1_000, 1_000),
    ("400 cable", |settings, number| settings.factors[1] = number as u32, 1_000, 30_000),
    ("275 overhead", |settings, number| settings.factors[2] = number as u32, 1_000, 30_000),
    ("275 cable", |settings, number| settings.factors[3] = number as u32, 1_000, 30_000),
    ("132 overhead", |settings, number| settings.factors[4] = number as u32, 1_000, 30_000),
    ("132 cable", |settings, number| settings.factors[5] = number as u32, 1_000, 30_000),
    ("revenue", |settings, number| settings.revenue = number, 0, 10_000_000_000),
];

/// Every setting, the reference row, and settings together.
pub fn add(list: &mut List) {
    let base = all_kinds();
    list.accepted("all kinds of length", &base, |_| ());
    RANGES.into_iter().for_each(|range| add_range(list, &base, range));
    list.refused("400 overhead 30000", &base, |case| case.settings.factors[0] = 30_000, (2, 0, 0));
    add_reference(list, &base);
    add_revenue(list);
    list.refused("every setting 0", &kiln(), |case| case.settings = Settings::default(), (2, 0, 0));
    let greatest = |case: &mut Case| RANGES.iter().for_each(|(_, set, _, high)| set(&mut case.settings, *high));
    list.solved("every setting at its greatest", &base, greatest);
    let least = |case: &mut Case| RANGES.iter().for_each(|(_, set, low, _)| set_within_zones(case, *set, *low));
    list.solved("every setting at its least", &base, least);
}

/// One setting at both ends of its range, one past each, and the greatest number of its bits.
fn add_range(list: &mut List, base: &Case, (name, set, low, high): (&str, Setting, u64, u64)) {
    // 400 kV overhead has one value alone, which is the base's.
    let ends: &[u64] = if low < high { &[low, high] } else { &[] };
    for number in ends {
        list.solved(format!("{name} {number}"), base, |case| set_within_zones(case, set, *number));
    }
    for number in low.checked_sub(1).into_iter().chain([high + 1]) {
        list.refused(format!("{name} {number}"), base, |case| set(&mut case.settings, number), (2, 0, 0));
    }
    list.refused(format!("{name} greatest"), base, |case| set(&mut case.settings, u64::MAX), (2, 0, 0));
}

/// A lawful setting, with the nodes' zones brought under the counts.
fn set_within_zones(case: &mut Case, set: Setting, number: u64) {
    set(&mut case.settings, number);
    for node in &mut case.nodes {
        node.generation_zone = node.generation_zone.min(case.settings.generation_zones);
        node.demand_zone = node.demand_zone.min(case.settings.demand_zones);
    }
}

/// The reference row: 0, 1, the last node's, one more.
fn add_reference(list: &mut List, base: &Case) {
    let last = base.nodes.len() as u32;
    for row in [1, 2, last] {
        list.solved(format!("reference row {row} of {last}"), base, |case| case.settings.reference = row);
    }
    for row in [0, last + 1, 256, 257, u32::MAX] {
        list.refused(format!("reference row {row} of {last}"), base, |case| case.settings.reference = row, (2, 0, 0));
    }
    // A lawful row other than the solutions': its potential isn't 0.
    list.refused("reference row 1, solved for 3", base, |case| case.settings.reference = 1, (8, 1, 1));
}

/// Revenues around the ends of 32 bits: the low half alone would mislead.
fn add_revenue(list: &mut List) {
    for revenue in [1, u32::MAX as u64, 1 << 32, (1 << 32) + 1] {
        list.accepted(format!("KILN with revenue {revenue}"), &kiln(), |case| case.settings.revenue = revenue);
    }
    for revenue in [1 << 34, 1 << 63, (1 << 63) + 100_000] {
        let set = |case: &mut Case| case.settings.revenue = revenue;
        list.refused(format!("KILN with revenue {revenue}"), &kiln(), set, (2, 0, 0));
    }
}
