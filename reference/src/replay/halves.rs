//! 02, CR 2, "Mirror the halves": halves of both signs in steps 6 to 9 with their neighbours, roundings that stay, and
//! cases with their mirrors.

use super::bases::{balanced, both_ways, circuit, kiln_zoned, mirrored, name, node, pair, station, zoned_node};
use super::figures::{apart, star};
use super::{changed, solved, List};
use crate::file::{Case, CircuitRow};
use crate::tables::INTERCONNECTOR;

/// Steps 6 to 9, several of them at once, what is still rounded down, mirrors, the greatest figures, type 3.
pub fn add(list: &mut List) {
    add_metres(list);
    add_metres_by_misses(list);
    add_averages(list);
    add_averages_of_unequal_weights(list);
    add_c(list);
    add_c_of_one_side(list);
    add_wider_tariffs(list);
    add_local_tariffs(list);
    add_chained(list);
    add_rounded_down(list);
    add_opposite_zones(list);
    add_mirrors(list);
    add_greatest_metres(list);
    add_greatest_averages(list);
    add_interconnectors(list);
}

/// All circuits marked, solved again.
fn marked(case: &Case) -> Case {
    solved(&changed(case, |case| case.circuits.iter_mut().for_each(|row| row.mark = 1)))
}

/// A case of `both_ways` whose nodes have TEC alone or demand alone: UP's demand and DOWN's TEC move to nodes beside
/// them.
fn parted(case: &Case) -> Case {
    solved(&changed(case, |case| {
        case.nodes.extend([zoned_node("UP_LOAD", 1, 1, case.nodes[0].demand), zoned_node("DOWN_GEN", 2, 2, 0)]);
        case.circuits.extend([circuit("UP", "UP_LOAD", 1, 0), circuit("DOWN", "DOWN_GEN", 1, 0)]);
        case.nodes[0].demand = 0;
        case.stations[1].node = name("DOWN_GEN");
    }))
}

/// Step 6: halves above and below the reference, and both 1 nm nearer to it and farther from it.
fn add_metres(list: &mut List) {
    for metres in [1, 3, 5] {
        let case = balanced(metres);
        let half = format!("{}.5 m", metres / 2);
        add_around(list, &format!("wider {half} and -{half}"), &case, 1);
        add_around(list, &format!("local {half} and -{half}"), &marked(&case), 2);
    }
    let case = parted(&balanced(1));
    add_around(list, "wider 0.5 m and -0.5 m, nodes of one side alone", &case, 1);
    add_around(list, "local 0.5 m and -0.5 m, nodes of one side alone", &marked(&case), 2);
}

/// A case, and with every potential of a run 1 nm nearer to zero and 1 nm farther from it.
fn add_around(list: &mut List, label: &str, case: &Case, run: usize) {
    list.accepted(label, case, |_| ());
    for (step, way) in [(-1, "nearer to zero"), (1, "farther from zero")] {
        let moved = |case: &mut Case| {
            let nodes = case.nodes.len();
            case.runs[run][..nodes].iter_mut().for_each(|potential| *potential += step * potential.signum());
        };
        list.accepted(format!("{label}, 1 nm {way}"), case, moved);
    }
}

/// Step 6 with step 2: misses of 100,000,000 take -1.4 m and -1.6 m to -1.5 m, and one more is refused.
fn add_metres_by_misses(list: &mut List) {
    for (factor, step, metres) in [(1_400, -1, "-1.4 m"), (1_600, 1, "-1.6 m")] {
        for (mark, system) in [(0, "wider"), (1, "local")] {
            let mut case = pair(1_000, vec![CircuitRow { voltage: 275, mark, ..circuit("GENR", "LOAD", 1, 1) }]);
            case.settings.factors[2] = factor;
            case.stations.push(station("NEAR", "LOAD", 100));
            let case = solved(&case);
            let run = 1 + mark as usize;
            let missed = |by: i64| move |case: &mut Case| case.runs[run][1] += by * step;
            let label = format!("{system} {metres}, and misses");
            list.accepted(format!("{label} to -1.5 m"), &case, missed(100_000_000));
            list.refused(format!("{label} past -1.5 m"), &case, missed(100_000_001), (10, run as u32 + 1, 0));
        }
    }
}

/// A case of `apart`, and with one kilowatt more of TEC and of demand at either node.
fn add_around_apart(list: &mut List, label: &str, metres: u32, reference: u32, tec: [u32; 2], demand: [u32; 2]) {
    list.accepted(label, &apart(metres, reference, tec, demand), |_| ());
    for (more, heavier) in [([1, 0], "A"), ([0, 1], "B")] {
        let added = |kw: [u32; 2]| [kw[0] + more[0], kw[1] + more[1]];
        let case = apart(metres, reference, added(tec), added(demand));
        list.accepted(format!("{label}, {heavier} heavier by 1 kW"), &case, |_| ());
    }
}

/// Step 7, equal weights: generation's average has one sign and demand's the other, by the reference.
fn add_averages(list: &mut List) {
    for (reference, generation, demand) in [(1, "-", ""), (2, "", "-")] {
        for metres in [3, 5] {
            let half = format!("{}.5 m", metres / 2);
            let label = format!("averages of {generation}{half} and {demand}{half}");
            add_around_apart(list, &label, metres, reference, [50_000; 2], [10_000; 2]);
        }
        // Weights so great that one kilowatt more is next to the half.
        let label = format!("averages of {generation}249,999.5 m and {demand}249,999.5 m");
        add_around_apart(list, &label, 499_999, reference, [19_000_000; 2], [9_000_000; 2]);
    }
}

/// Step 7: the node that isn't the reference has a quarter of the weight.
fn add_averages_of_unequal_weights(list: &mut List) {
    for (reference, generation, demand) in [(1, "-", ""), (2, "", "-")] {
        let quarter = |kw: u32| if reference == 1 { [3 * kw, kw] } else { [kw, 3 * kw] };
        let label = |half: &str| format!("averages of {generation}{half} and {demand}{half}, weights 1 to 3");
        add_around_apart(list, &label("0.5 m"), 2, reference, quarter(25_000), quarter(5_000));
        for (metres, half) in [(6, "1.5 m"), (10, "2.5 m"), (499_998, "124,999.5 m")] {
            let case = apart(metres, reference, quarter(25_000), quarter(5_000));
            list.accepted(label(half), &case, |_| ());
        }
    }
}

/// GENR sends over so many metres to LOAD, each in zones of its own.
fn two_zones(metres: u32, reference: u32, p: u32, tec: [u32; 2], demand: [u32; 2]) -> Case {
    let mut case = pair(0, vec![circuit("GENR", "LOAD", 1, metres)]);
    (case.settings.generation_zones, case.settings.demand_zones) = (2, 2);
    (case.settings.reference, case.settings.p) = (reference, p);
    case.nodes = vec![zoned_node("GENR", 1, 1, demand[0]), zoned_node("LOAD", 2, 2, demand[1])];
    case.stations = vec![station("GEN_1", "GENR", tec[0]), station("GEN_2", "LOAD", tec[1])];
    solved(&case)
}

/// Step 8: all TEC at GENR and all demand at LOAD, C above zero from GENR and below from LOAD; one kilowatt more of TEC
/// at either takes C to either side of the half.
fn add_c(list: &mut List) {
    for (reference, sign) in [(1, ""), (2, "-")] {
        for (metres, kw, half) in [(1, 1_000, "0.5 m"), (499_999, 10_000_000, "249,999.5 m")] {
            let of = |tec| two_zones(metres, reference, 500, tec, [0, kw]);
            list.accepted(format!("C of {sign}{half}"), &of([kw, 0]), |_| ());
            list.accepted(format!("C of {sign}{half}, 1 kW more at GENR"), &of([kw + 1, 0]), |_| ());
            list.accepted(format!("C of {sign}{half}, 1 kW more at LOAD"), &of([kw, 1]), |_| ());
        }
        let case = two_zones(5, reference, 500, [1_000, 0], [0, 1_000]);
        list.accepted(format!("C of {sign}2.5 m"), &case, |_| ());
    }
    // By p's share: three quarters of 2 m from GENR, a quarter of them from LOAD.
    for (reference, half) in [(1, "1.5 m"), (2, "-0.5 m")] {
        for (metres, more) in [(2, ""), (1, ", 1 m less"), (3, ", 1 m more")] {
            let case = two_zones(metres, reference, 250, [1_000, 0], [0, 1_000]);
            list.accepted(format!("C of {half}, p 250{more}"), &case, |_| ());
        }
    }
}

/// Step 8 at p's ends: C is the average of demand's zones, or the negative of generation's; one kilowatt more at either
/// node.
fn add_c_of_one_side(list: &mut List) {
    for (reference, sign) in [(1, ""), (2, "-")] {
        for (more, heavier) in [([0, 0], ""), ([1, 0], ", GENR heavier by 1 kW"), ([0, 1], ", LOAD heavier by 1 kW")] {
            let kw = [10_000 + more[0], 10_000 + more[1]];
            let by_demand = two_zones(3, reference, 0, [kw[0] + kw[1], 0], kw);
            list.accepted(format!("C of {sign}1.5 m, p 0{heavier}"), &by_demand, |_| ());
            let by_tec = two_zones(3, reference, 1_000, kw, [0, 20_000]);
            list.accepted(format!("C of {sign}1.5 m, p 1,000{heavier}"), &by_tec, |_| ());
        }
    }
}

/// Metres, constant and factor whose product / 100,000 is a half or next to one.
const TARIFFS: [(u32, u32, u32, &str); 7] = [
    (49, 1, 1_000, "0.49"),
    (50, 1, 1_000, "0.5"),
    (51, 1, 1_000, "0.51"),
    (150, 1, 1_000, "1.5"),
    (40, 3, 1_249, "1.4988"),
    (40, 3, 1_250, "1.5"),
    (40, 3, 1_251, "1.5012"),
];

/// Step 9 with C of 0: tariffs of both signs on both sides. Then halves of metres after C, and not of zonal ones.
fn add_wider_tariffs(list: &mut List) {
    for (metres, constant, factor, tariff) in TARIFFS {
        let label = format!("wider tariffs of {tariff} and -{tariff}, {metres} m");
        list.accepted(label, &balanced(2 * metres), |case| {
            (case.settings.constant, case.settings.wider_factor) = (constant, factor)
        });
    }
    for p in [0, 1_000] {
        list.accepted(format!("wider tariffs of 0.5, 1.5, -0.5 and -1.5 after C, p {p}"), &balanced(200), |case| {
            (case.settings.p, case.settings.constant, case.settings.wider_factor) = (p, 1, 1_000)
        });
    }
}

/// Step 9: local tariffs of both signs, by the local factor.
fn add_local_tariffs(list: &mut List) {
    for (metres, constant, factor, tariff) in TARIFFS {
        let label = format!("local tariffs of {tariff} and -{tariff}, {metres} m");
        list.accepted(label, &marked(&balanced(2 * metres)), |case| {
            (case.settings.constant, case.settings.local_factor) = (constant, factor)
        });
    }
}

/// UP at 0.5 m, DOWN at -0.5 m; HUB weighs as much as DOWN in generation's zone and as UP in demand's, whose averages are
/// -0.5 m then. C is 0.5 m with p 0 and -0.5 m with p 1,000, and 2 m a tariff of 0.5.
fn chained(p: u32) -> Case {
    let mut case = both_ways(1, [60_000, 10_000], [10_000, 60_000]);
    case.nodes[1] = zoned_node("HUB", 2, 1, 10_000);
    case.stations.push(station("GEN_3", "HUB", 10_000));
    (case.settings.p, case.settings.constant, case.settings.wider_factor) = (p, 25, 1_000);
    solved(&case)
}

/// Halves of metres, of averages, of C and of tariffs, each made by the one before.
fn add_chained(list: &mut List) {
    add_around(list, "halves of steps 6 to 9, p 0", &chained(0), 1);
    list.accepted("halves of steps 6 to 9, p 1,000", &chained(1_000), |_| ());
    list.accepted("halves of steps 6, 7 and 9, p 500", &chained(500), |case| case.settings.constant = 50);
    list.accepted("halves of steps 6 and 7, p 250", &chained(250), |_| ());
}

/// Steps 1 and 10: what was rounded down still is. Rests are of half the kilowatts, or of three halves.
fn add_rounded_down(list: &mut List) {
    let tariff_of = |tariff: u32| move |case: &mut Case| case.settings.constant = 100 * tariff;
    for (tariff, rest) in [(1, "0.5"), (3, "1.5")] {
        let without_revenue = |case: &mut Case| {
            tariff_of(tariff)(case);
            (case.settings.revenue, case.settings.wider_factor) = (0, 1_000);
        };
        list.accepted(format!("rests of -{rest} a kW on both sides"), &balanced(2), without_revenue);
        let local = marked(&balanced(2));
        list.accepted(format!("generation's rest of -{rest} a kW by local income"), &local, without_revenue);
        let turned = marked(&both_ways(2, [10_000, 30_000], [0, 40_000]));
        list.accepted(format!("generation's rest of {rest} a kW by local income"), &turned, without_revenue);
    }
    list.accepted("rests of 11.5 a kW on both sides", &balanced(2), |case| {
        tariff_of(2)(case);
        (case.settings.revenue, case.settings.wider_factor) = (1, 1_000);
    });
    list.accepted("two nodes of 1 kW, demand 1 kW: scaled 0.5 each", &star(&[1, 1], 1), |_| ());
    list.accepted("two nodes of 3 kW, demand 3 kW: scaled 1.5 each", &star(&[3, 3], 3), |_| ());
    let both_up = |case: &mut Case| case.runs[0] = [2, 2, 0, 2, 2].map(|kw| 1_000_000 * kw).to_vec();
    list.refused("two nodes of 3 kW, demand 3 kW: scaled 2 each", &star(&[3, 3], 3), both_up, (9, 1, 2));
}

/// SEND, EAST, WEST, TAKE in a line; EAST and WEST, so many millimetres apart, each with TEC and demand alike and together
/// in zone 1 on both sides.
fn between(reference: u32, millimetres: u32, kw: [u32; 2]) -> Case {
    let middle = CircuitRow { voltage: 275, ..circuit("EAST", "WEST", 1, 1) };
    let mut case = pair(0, vec![circuit("SEND", "EAST", 1, 2), middle, circuit("WEST", "TAKE", 1, 6)]);
    (case.settings.generation_zones, case.settings.demand_zones, case.settings.reference) = (2, 2, reference);
    (case.settings.constant, case.settings.wider_factor, case.settings.factors[2]) = (50, 1_000, millimetres);
    case.nodes = vec![zoned_node("SEND", 2, 2, 0), node("EAST", kw[0]), node("WEST", kw[1])];
    case.nodes.push(zoned_node("TAKE", 2, 2, 50_000));
    case.stations = vec![station("GEN_1", "SEND", 50_000), station("GEN_2", "EAST", kw[0])];
    case.stations.push(station("GEN_3", "WEST", kw[1]));
    solved(&case)
}

/// Zones 1 of both sides have the same nodes and weights: opposite metres, metres after C and tariffs.
fn add_opposite_zones(list: &mut List) {
    for (reference, row) in [(2, "EAST"), (3, "WEST")] {
        let cases = [
            ("averages of a half", between(reference, 1_000, [20_000; 2])),
            ("averages of three halves", between(reference, 3_000, [20_000; 2])),
            ("metres of three halves", between(reference, 1_500, [30_000, 10_000])),
        ];
        for (what, case) in cases {
            list.accepted(format!("opposite zones, {what}, from {row}"), &case, |_| ());
        }
    }
}

/// Cases against their mirrors: C has the other sign, and generation's lines stand for demand's.
fn add_mirrors(list: &mut List) {
    // NODB stands at 20,999.5 m: A-B has 2 m more, which the loop of x 400 divides.
    let zoned = solved(&changed(&kiln_zoned(), |case| {
        case.circuits[0].overhead = 10_002;
        (case.stations[0].tec, case.stations[1].tec, case.settings.p) = (100_000, 50_000, 250);
    }));
    let uneven = changed(&both_ways(3, [35_000, 15_000], [20_000, 30_000]), |case| case.settings.p = 300);
    let cases = [
        ("KILN with zones and NODB at 20,999.5 m, p 250", zoned),
        ("1.5 m and -1.5 m, p 300", uneven),
        ("C of -2.5 m, TEC and demand at both ends", two_zones(4, 2, 500, [30_000, 10_000], [20_000, 20_000])),
    ];
    for (label, case) in cases {
        list.accepted(label, &case, |_| ());
        list.accepted(format!("{label}, in the mirror"), &mirrored(&case), |_| ());
    }
    let listed = [
        ("halves of steps 6 and 7, p 250", chained(250)),
        ("C of -0.5 m, p 250", two_zones(2, 2, 250, [1_000, 0], [0, 1_000])),
        ("opposite zones, averages of three halves, from EAST", between(2, 3_000, [20_000; 2])),
    ];
    for (label, case) in listed {
        list.accepted(format!("{label}, in the mirror"), &mirrored(&case), |_| ());
    }
}

/// A circuit of 9,999,999.5 m (499,999 times 20, and 19.5) from TOP to END, each in zones of its own; TOP sends.
fn nearly_the_farthest() -> Case {
    let long = CircuitRow { voltage: 275, overhead: 499_999, cable: 1, ..circuit("TOP", "END", 1, 0) };
    let mut case = pair(0, vec![long]);
    (case.settings.generation_zones, case.settings.demand_zones) = (2, 2);
    (case.settings.factors[2], case.settings.factors[3]) = (20_000, 19_500);
    case.nodes = vec![node("TOP", 1_000), zoned_node("END", 2, 2, 9_000)];
    case.stations = vec![station("GEN_1", "TOP", 9_000), station("GEN_2", "END", 1_000)];
    solved(&case)
}

/// Step 6 next to the greatest magnitude, wider and local.
fn add_greatest_metres(list: &mut List) {
    let case = nearly_the_farthest();
    add_around(list, "wider -9,999,999.5 m", &case, 1);
    list.accepted("wider 9,999,999.5 m", &mirrored(&case), |_| ());
    add_around(list, "local -9,999,999.5 m", &marked(&case), 2);
    list.accepted("local 9,999,999.5 m", &mirrored(&marked(&case)), |_| ());
}

/// TOP sends over 9,999,999 m to NEAR, and NEAR over 1 m to FAR, which are in these zones.
fn two_far_nodes(zones: [u32; 2], demand: [u32; 2]) -> Case {
    let long = CircuitRow { voltage: 275, ..circuit("TOP", "NEAR", 1, 464_900) };
    let mut case = pair(0, vec![long, circuit("NEAR", "FAR", 1, 1)]);
    (case.settings.generation_zones, case.settings.demand_zones, case.settings.factors[2]) = (3, 3, 21_510);
    let far = |text, place: usize| zoned_node(text, zones[place], zones[place], demand[place]);
    case.nodes = vec![node("TOP", 0), far("NEAR", 0), far("FAR", 1)];
    case.stations = vec![station("GEN_1", "TOP", demand[0] + demand[1] - 20_000)];
    case.stations.extend([station("GEN_2", "NEAR", 10_000), station("GEN_3", "FAR", 10_000)]);
    solved(&case)
}

/// Steps 7, 8 and 9 next to the greatest magnitudes, below zero and in the mirror above.
fn add_greatest_averages(list: &mut List) {
    let one_zone = two_far_nodes([2, 2], [40_000; 2]);
    list.accepted("averages of -9,999,999.5 m and 9,999,999.5 m", &one_zone, |_| ());
    list.accepted("averages of 9,999,999.5 m and -9,999,999.5 m", &mirrored(&one_zone), |_| ());
    for (demand, heavier) in [
        ([40_000, 40_000], ""),
        ([40_001, 40_000], ", the near node heavier by 1 kW"),
        ([40_000, 40_001], ", the far node heavier by 1 kW"),
    ] {
        let by_demand = changed(&two_far_nodes([2, 3], demand), |case| case.settings.p = 0);
        list.accepted(format!("C of 9,999,999.5 m, p 0{heavier}"), &by_demand, |_| ());
        list.accepted(format!("C of -9,999,999.5 m, p 1,000{heavier}"), &mirrored(&by_demand), |_| ());
    }
    // 9,999,999 m times 499.5.
    let tariff = changed(&marked(&one_zone), |case| {
        (case.settings.constant, case.settings.local_factor) = (9_990, 5_000);
    });
    list.accepted("local tariff of -4,994,999,500.5", &tariff, |_| ());
    list.accepted("local tariff of 4,994,999,500.5", &mirrored(&tariff), |_| ());
}

/// 02, CR 1 beside CR 2: type 3 weighs in an average of -0.5 m, prints metres of -0.5 m, and leaves C's half.
fn add_interconnectors(list: &mut List) {
    let link = |place: usize| move |case: &mut Case| case.stations[place].plant = INTERCONNECTOR;
    list.accepted("an average of -0.5 m, B of type 3", &apart(1, 1, [50_000; 2], [10_000; 2]), link(1));
    list.accepted("wider -0.5 m of type 3", &balanced(1), link(1));
    list.accepted("local -0.5 m of type 3", &marked(&balanced(1)), link(1));
    for (reference, half) in [(1, "1.5 m"), (2, "-1.5 m")] {
        let case = two_zones(3, reference, 500, [1_000, 500], [0, 1_000]);
        list.accepted(format!("C of {half} over what pays"), &case, link(1));
    }
}
