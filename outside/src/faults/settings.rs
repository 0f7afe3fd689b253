//! 01, 2: "a setting outside its range (reference row included)".

use super::Faults;
use reference::file::Settings;

type Place = fn(&mut Settings) -> &mut u32;

/// Each setting of 32 bits with the ends of its range.
const RANGES: [(&str, Place, u32, u32); 12] = [
    ("generation zones", |settings| &mut settings.generation_zones, 1, 32),
    ("demand zones", |settings| &mut settings.demand_zones, 1, 32),
    ("p", |settings| &mut settings.p, 0, 1_000),
    ("constant", |settings| &mut settings.constant, 1, 10_000),
    ("wider factor", |settings| &mut settings.wider_factor, 1_000, 5_000),
    ("local factor", |settings| &mut settings.local_factor, 1_000, 5_000),
    ("400 overhead", |settings| &mut settings.factors[0], 1_000, 1_000),
    ("400 cable", |settings| &mut settings.factors[1], 1_000, 30_000),
    ("275 overhead", |settings| &mut settings.factors[2], 1_000, 30_000),
    ("275 cable", |settings| &mut settings.factors[3], 1_000, 30_000),
    ("132 overhead", |settings| &mut settings.factors[4], 1_000, 30_000),
    ("132 cable", |settings| &mut settings.factors[5], 1_000, 30_000),
];

pub fn add(list: &mut Faults) {
    for (name, place, low, high) in RANGES {
        if low > 0 {
            list.case(2, 0, format!("{name} below {low}"), move |case, chance| {
                *place(&mut case.settings) = chance.of(&[0, low - 1]);
                Some(0)
            });
        }
        list.case(2, 0, format!("{name} above {high}"), move |case, chance| {
            *place(&mut case.settings) = chance.of(&[high + 1, high + 1, 1 << 31, u32::MAX]);
            Some(0)
        });
    }
    list.case(2, 0, "reference row 0", |case, _| {
        case.settings.reference = 0;
        Some(0)
    });
    list.case(2, 0, "reference row behind the nodes", |case, chance| {
        case.settings.reference = chance.of(&[case.nodes.len() as u32 + 1, u32::MAX]);
        Some(0)
    });
    list.case(2, 0, "revenue above 10,000,000,000", |case, chance| {
        case.settings.revenue = chance.of(&[10_000_000_001, 1 << 63, u64::MAX]);
        Some(0)
    });
}
