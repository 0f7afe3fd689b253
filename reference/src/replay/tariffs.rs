//! 02, CR 5: the figures of both backgrounds: metres, C, tariffs, totals, residuals, and who pays them.

use super::bases::{circuit, divide, name, named_case, pair, station, zoned_node};
use super::edition_2::{as_edition_2, side_by_side, spoke, spokes, Stands};
use super::interconnectors::alone_with;
use super::{changed, List};
use crate::file::{Case, CircuitRow, StationRow};
use Stands::{Local, Peak, YearRound};

/// 02, CR 5: the plant type that pays year round and not at peak.
const INTERMITTENT: u32 = 1;

/// Money, zones, plant types, stations, halves, the greatest figures.
pub fn add(list: &mut List) {
    list.accepted("two backgrounds by hand", &both_kinds(), |_| ());
    add_money(list);
    add_zones(list);
    add_plants(list);
    add_local(list);
    add_divided(list);
    add_halves_of_metres(list);
    add_halves_of_c(list);
    add_halves_of_tariffs(list);
    add_remainders(list);
    add_text(list);
    add_greatest(list);
}

/// Makes a station of type 1 of one of type 3, with so much TEC that 70% of it are as many kilowatts. The flows stay.
fn make_intermittent(case: &mut Case, identifier: &str) {
    let row = case.stations.iter_mut().find(|row| row.identifier == name(identifier)).expect("a station");
    assert!(row.plant == 3 && row.tec % 7 == 0, "a station of type 3 whose kilowatts are sevenths");
    (row.plant, row.tec) = (INTERMITTENT, row.tec / 7 * 10);
}

/// Spokes with a length in each background, both ways; demand at S3, S4 and HUB.
fn four_ways() -> Case {
    spokes(&[
        spoke([7_000, 0], 1_000, YearRound),
        spoke([700, 7_000], 3_000, Peak),
        spoke([-2_100, -700], 2_000, YearRound),
        spoke([-700, -2_100], 4_000, Peak),
    ])
}

/// Four ways, where S1 has type 1 alone, S2 types 1 and 6, S3 type 6 and S4 type 3, both in generation zone 3, HUB type 6;
/// zone 5 has nothing. S3, S4 and HUB are in demand zones 2, 3 and 4.
fn both_kinds() -> Case {
    let mut case = four_ways();
    (case.settings.generation_zones, case.settings.demand_zones) = (5, 4);
    for (row, zones) in case.nodes.iter_mut().zip([(1, 1), (2, 1), (3, 2), (3, 3), (4, 4)]) {
        (row.generation_zone, row.demand_zone) = zones;
    }
    make_intermittent(&mut case, "S1_3");
    make_intermittent(&mut case, "S2_3");
    case
}

/// A generation zone a node.
fn zone_each(case: &mut Case) {
    case.settings.generation_zones = case.nodes.len() as u32;
    case.nodes.iter_mut().zip(1..).for_each(|(row, zone)| row.generation_zone = zone);
}

/// Shares, revenues, constants and factors at their ends; residuals below zero.
fn add_money(list: &mut List) {
    let base = both_kinds();
    for p in [0, 1, 333, 999, 1_000] {
        list.accepted(format!("two backgrounds, p {p}"), &base, |case| case.settings.p = p);
    }
    for (p, revenue) in [(0, 0), (500, 0), (1_000, 0), (500, 7), (0, 10_000_000_000), (1_000, 9_999_999_999)] {
        let set = |case: &mut Case| (case.settings.p, case.settings.revenue) = (p, revenue);
        list.accepted(format!("two backgrounds, p {p}, revenue {revenue}"), &base, set);
    }
    for (constant, wider, local) in [(1, 1_000, 1_000), (10_000, 5_000, 5_000), (1_007, 1_799, 1_001)] {
        let set = |case: &mut Case| {
            (case.settings.constant, case.settings.wider_factor, case.settings.local_factor) = (constant, wider, local)
        };
        list.accepted(format!("two backgrounds, constant {constant}, factors {wider} and {local}"), &base, set);
    }
}

/// Zones of one node, of several, of none; in another order.
fn add_zones(list: &mut List) {
    let base = both_kinds();
    let of = |counts: (u32, u32), generation: [u32; 5], demand: [u32; 5]| {
        move |case: &mut Case| {
            (case.settings.generation_zones, case.settings.demand_zones) = counts;
            for (place, row) in case.nodes.iter_mut().enumerate() {
                (row.generation_zone, row.demand_zone) = (generation[place], demand[place]);
            }
        }
    };
    list.accepted("two backgrounds, one zone a side", &base, of((1, 1), [1; 5], [1; 5]));
    list.accepted("two backgrounds, a zone a node", &base, of((5, 5), [1, 2, 3, 4, 5], [1, 2, 3, 4, 5]));
    list.accepted("two backgrounds, zones against the order", &base, of((5, 5), [5, 4, 3, 2, 1], [5, 4, 3, 2, 1]));
    list.accepted("two backgrounds, types 1 and 6 in a zone", &base, of((3, 2), [1, 1, 2, 2, 3], [1, 1, 1, 2, 2]));
    list.accepted("two backgrounds, types 1 and 3 in a zone", &base, of((3, 3), [2, 3, 1, 2, 1], [1, 1, 3, 2, 1]));
    list.accepted("two backgrounds, 32 zones", &base, of((32, 32), [32, 1, 17, 16, 2], [1, 1, 31, 32, 16]));
    list.accepted("two backgrounds, 32 zones of one", &base, of((32, 32), [32; 5], [1; 5]));
    let one = |case: &mut Case| case.stations.push(StationRow { plant: INTERMITTENT, ..station("ONE", "S3", 1) });
    list.accepted("two backgrounds, 1 kW of type 1 that doesn't run", &base, one);
    let apart = |case: &mut Case| {
        case.stations.push(StationRow { plant: INTERMITTENT, ..station("ONE", "HUB", 1) });
        case.stations.retain(|row| row.identifier != name("HUB_6"));
        case.stations.push(StationRow { plant: 6, ..station("OTHER", "S2", 700) });
        // S2 now sends 700 kW more at peak.
        (case.runs[3][1], case.runs[3][6]) = (7_700_000_000, 7_700_000_000);
    };
    list.accepted("two backgrounds, a zone of 1 kW of type 1 that doesn't run", &base, apart);
    list.accepted("two backgrounds, a station of type 1 with 0 kW", &base, |case| {
        case.stations.push(StationRow { plant: INTERMITTENT, ..station("NONE", "HUB", 0) })
    });
}

/// Types 1 and 3 in each other's places: what pays at peak, year round and not at all.
fn add_plants(list: &mut List) {
    let year_round = ["S1_3", "S2_3", "S4_3"];
    let base = changed(&four_ways(), |case| (zone_each(case), case.settings.p = 730).1);
    for kinds in 0..8usize {
        let ones: Vec<&str> = (0..3).filter(|bit| kinds >> bit & 1 == 1).map(|bit| year_round[bit]).collect();
        let label = match ones.is_empty() {
            true => "two backgrounds, a zone a node: type 3 everywhere".to_string(),
            false => format!("two backgrounds, a zone a node: type 1 for {}", ones.join(", ")),
        };
        list.accepted(label, &base, |case| ones.iter().for_each(|identifier| make_intermittent(case, identifier)));
    }
}

/// Marked circuits to nodes of type 1, of type 3, of type 6 and without TEC: who pays local tariffs.
fn add_local(list: &mut List) {
    let rows = [
        spoke([700, 0], 100, Local),
        spoke([1_400, 0], 200, Local),
        spoke([500, 2_100], 300, Local),
        spoke([-900, -900], 400, Local),
        spoke([7_000, 700], 500, YearRound),
    ];
    let case = changed(&spokes(&rows), |case| {
        make_intermittent(case, "S1_3");
        zone_each(case);
        case.settings.local_factor = 1_150;
    });
    for (p, revenue) in [(500, 100_000), (0, 0), (1_000, 0)] {
        let set = |case: &mut Case| (case.settings.p, case.settings.revenue) = (p, revenue);
        list.accepted(format!("local tariffs of edition 2, p {p}, revenue {revenue}"), &case, set);
    }
    list.accepted("local tariffs of edition 2 in one zone", &case, |case| {
        case.nodes.iter_mut().for_each(|row| row.generation_zone = 1)
    });
}

/// Stations divided and in another order: the same sheet as whole.
fn add_divided(list: &mut List) {
    let base = both_kinds();
    list.accepted("two backgrounds by hand, stations in two", &base, |case| {
        divide(case, |tec| vec![tec / 3, tec - tec / 3])
    });
    list.accepted("two backgrounds by hand, stations in three", &base, |case| divide(case, |tec| vec![1, tec - 3, 2]));
    list.accepted("two backgrounds by hand, stations turned round", &base, |case| case.stations.reverse());
    list.accepted("two backgrounds by hand, stations in two and turned round", &base, |case| {
        divide(case, |tec| vec![tec - 1, 1]);
        case.stations.reverse();
    });
}

/// Step 6 in each system: half a metre and 1 nm to either side, of both signs.
fn add_halves_of_metres(list: &mut List) {
    for (stands, flows) in [(YearRound, [5, 0]), (Peak, [0, 5]), (Local, [5, 5])] {
        let (run, _) = stands.places().expect("a system");
        for (sign, word) in [(1, "0.5 m"), (-1, "-0.5 m")] {
            let flows = flows.map(|flow: i64| sign * flow * 1_000_000_000);
            let case = changed(&side_by_side(flows, 1, (stands == Local) as u32, stands), |case| {
                (case.settings.generation_zones, case.settings.demand_zones) = (2, 2);
                (case.nodes[0].generation_zone, case.nodes[0].demand_zone) = (2, 2);
                // Something to weigh with on both sides, whatever S1 sends.
                add_demand_met(case, "S1", 7);
            });
            for (by, way) in [(0, ""), (1, ", 1 nm farther"), (-1, ", 1 nm nearer")] {
                let label = format!("edition 2: {} {word}{way}", stands.word());
                list.accepted(label, &case, |case| case.runs[run][0] += by * sign);
            }
        }
    }
}

/// Step 8: C of a half at peak and year round, and its neighbours.
fn add_halves_of_c(list: &mut List) {
    // All TEC that pays at peak stands at S1, as much as demand: C is minus half of the metres.
    for metres in [1, 2, 3, 1_001] {
        let case = spokes(&[spoke([0, 1_001], metres, Peak)]);
        list.accepted(format!("C at peak of minus half of {metres} m"), &case, |_| ());
    }
    // 1,001 of 1,002 kW of demand stand 1,002 m below, and no TEC that pays stands off: half of 1,001 m.
    list.accepted("C at peak of 500.5 m", &spokes(&[spoke([0, -1_001], 1_002, Peak)]), |_| ());
    // Type 1 has 10,000 of 17,000 kW, demand is 7,000: five twelfths.
    for metres in [6, 7, 18] {
        let case = changed(&spokes(&[spoke([7_000, 0], metres, YearRound)]), |case| make_intermittent(case, "S1_3"));
        list.accepted(format!("C year round of minus five twelfths of {metres} m"), &case, |_| ());
    }
}

/// Demand at a node that stations of types 3 and 6 there meet, year round and at peak. The flows stay.
fn add_demand_met(case: &mut Case, text: &str, kw: u32) {
    case.nodes.iter_mut().find(|row| row.name == name(text)).expect("a node").demand += kw;
    for plant in [3, 6] {
        case.stations.push(StationRow { plant, ..station(&format!("MET_{plant}"), text, kw) });
    }
}

/// Step 9: tariffs of a hundredth of the metres, and of a half, in each background and of both signs. With p 1,000 equal
/// kilowatts that pay on either side leave C at 0.
fn add_halves_of_tariffs(list: &mut List) {
    let hundredths = |case: &mut Case| {
        zone_each(case);
        (case.settings.constant, case.settings.wider_factor, case.settings.p) = (1, 1_000, 1_000);
    };
    for metres in [49, 50, 51, 150] {
        let year_round = changed(
            &spokes(&[spoke([7_000, 0], metres, YearRound), spoke([-5_500, 4_500], metres, YearRound)]),
            |case| {
                make_intermittent(case, "S1_3");
                hundredths(case);
            },
        );
        list.accepted(format!("year round tariffs of {metres} and -{metres} hundredths"), &year_round, |_| ());
        let peak =
            changed(&spokes(&[spoke([0, 10_000], metres, Peak), spoke([-2_000, -2_000], metres, Peak)]), |case| {
                add_demand_met(case, "S2", 10_000);
                hundredths(case);
            });
        list.accepted(format!("peak tariffs of {metres} and -{metres} hundredths"), &peak, |_| ());
    }
}

/// Step 10 without distances: rests that type 1 leaves another remainder of, and one kilowatt that pays.
fn add_remainders(list: &mut List) {
    let alone =
        |demand: u32, tec: &[(u32, u32)], revenue: u64, p: u32| as_edition_2(&alone_with(demand, tec, revenue, p));
    // 10,000 kW of type 1 run at 7,000, which are demand; type 6 is there for peak.
    for (six, revenue) in [(7_000, 1), (7_003, 1), (7_001, 100_003)] {
        let label = format!("a remainder over 10,000 kW of type 1 and {six} of type 6, revenue {revenue}");
        list.accepted(label, &alone(7_000, &[(1, 10_000), (6, six)], revenue, 0), |_| ());
    }
    list.accepted("one kilowatt that pays in each background", &alone(1, &[(3, 1), (6, 1)], 1, 500), |_| ());
    for p in [0, 1_000] {
        let case = alone(1, &[(3, 1), (6, 1)], 10_000_000_000, p);
        list.accepted(format!("one kilowatt that pays in each background, the greatest revenue, p {p}"), &case, |_| ());
    }
}

/// SEVEN, with every type, a marked circuit and misses of its own.
fn add_text(list: &mut List) {
    let seven = named_case("SEVEN");
    for (p, revenue) in [(0, 0), (1, 7), (730, 10_000_000_000), (1_000, 0)] {
        let set = |case: &mut Case| (case.settings.p, case.settings.revenue) = (p, revenue);
        list.accepted(format!("SEVEN, p {p}, revenue {revenue}"), &seven, set);
    }
    list.accepted("SEVEN in one zone a side", &seven, |case| {
        (case.settings.generation_zones, case.settings.demand_zones) = (1, 1);
        case.nodes.iter_mut().for_each(|row| (row.generation_zone, row.demand_zone) = (1, 1));
    });
    list.accepted("SEVEN with stations turned round", &seven, |case| case.stations.reverse());
    let refer = |case: &mut Case, place: usize| {
        case.settings.reference = place as u32 + 1;
        for run in &mut case.runs {
            let zero = run[place];
            run[..5].iter_mut().for_each(|potential| *potential -= zero);
        }
    };
    for place in [0, 3] {
        list.accepted(format!("SEVEN from row {}", place + 1), &seven, |case| refer(case, place));
    }
}

/// A circuit of 10^16 nm.
fn far(first: &str, second: &str) -> CircuitRow {
    CircuitRow { factor: 20_000, ..circuit(first, second, 1, 500_000) }
}

/// GENR stands 10^7 m above MID, the reference, in each background and 10^7 m local, the loads 10^7 m below in each. A length
/// stands in one background only, so two in a row lead up and down: UP and DOWN run at peak alone, MID year round alone. A
/// kilowatt of demand stands above and a little TEC below, in zones 2.
fn greatest(p: u32, revenue: u64) -> Case {
    let names = ["GENR", "NEAR", "UP", "MID", "DOWN"];
    let loads = ["L1", "L2", "L3", "L4", "L5"];
    let mut case = pair(0, names.windows(2).map(|ends| far(ends[0], ends[1])).collect());
    case.circuits[0].mark = 1;
    (case.settings.constant, case.settings.wider_factor, case.settings.local_factor) = (10_000, 5_000, 5_000);
    (case.settings.generation_zones, case.settings.demand_zones) = (2, 2);
    (case.settings.reference, case.settings.p, case.settings.revenue) = (4, p, revenue);
    case.nodes = names.iter().map(|text| zoned_node(text, 1, 2, (*text == "GENR") as u32)).collect();
    case.nodes.extend(loads.map(|text| zoned_node(text, 2, 1, 19_994_000)));
    case.circuits.extend(loads.map(|text| far("DOWN", text)));
    case.stations = loads.iter().map(|text| station(text, "GENR", 19_992_000)).collect();
    let own = [("UP", 6, 10_000), ("MID", INTERMITTENT, 15_000), ("DOWN", 6, 10_000), ("L5", 7, 2_000)];
    case.stations
        .extend(own.map(|(text, plant, tec)| StationRow { plant, ..station(&format!("{text}_{plant}"), text, tec) }));
    as_edition_2(&case)
}

/// The greatest metres, tariffs, incomes and rests of both backgrounds.
fn add_greatest(list: &mut List) {
    for p in [0, 500, 1_000] {
        for revenue in [0, 10_000_000_000] {
            list.solved(
                format!("greatest figures of edition 2, p {p}, revenue {revenue}"),
                &greatest(p, revenue),
                |_| (),
            );
        }
    }
}
