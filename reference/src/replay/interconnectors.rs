//! 02, CR 1, "Interconnectors don't pay": what type 3 TEC counts for and what not, and 13.

use super::bases::{kiln, kiln_with_a_spur, kiln_zoned, name, named_case, station, LINK_TEXTS};
use super::figures::{apart, greatest_figures, long_sheet, star};
use super::network::greatest_totals;
use super::orders::{said, FAULTS};
use super::{changed, solved, List, Told, ONE};
use crate::file::{Case, StationRow};
use crate::tables::INTERCONNECTOR;
use crate::text;

/// 02, CR 1: the plant types that pay.
const PAYING: [u32; 6] = [1, 2, 4, 5, 6, 7];
/// 02, CR 1: "Refusals: 13, system 0 row 0".
const THIRTEEN: (u32, u32, u32) = (13, 0, 0);

/// What counts, what is refused, what comes first, the greatest figures.
pub fn add(list: &mut List) {
    for (name, text) in LINK_TEXTS {
        list.file(name, text::make(text.as_bytes()).expect("a text without faults"), Told::Sheet);
    }
    add_places(list);
    add_mixed_nodes(list);
    add_weights(list);
    add_zero_kilowatts(list);
    add_money(list);
    add_texts(list);
    add_every_type(list);
    add_scaling(list);
    add_refused(list);
    add_refused_totals(list);
    add_nothing_of_others(list);
    add_one_before(list);
    add_orders(list);
    add_reference_potentials(list);
    add_remainders(list);
    add_greatest(list);
}

/// An interconnector.
fn link(identifier: &str, node: &str, tec: u32) -> StationRow {
    StationRow { plant: INTERCONNECTOR, ..station(identifier, node, tec) }
}

/// Makes interconnectors of the stations in these places.
fn make_links(case: &mut Case, places: &[usize]) {
    places.iter().for_each(|place| case.stations[*place].plant = INTERCONNECTOR);
}

/// Makes interconnectors of all stations.
fn make_all_links(case: &mut Case) {
    case.stations.iter_mut().for_each(|row| row.plant = INTERCONNECTOR);
}

/// KILN with a generation zone a node, A-C marked and p 730: NODA and NODB differ in wider and in local metres, and
/// NODC's zone has no TEC.
fn marked_zones() -> Case {
    solved(&changed(&kiln_zoned(), |case| {
        case.circuits[2].mark = 1;
        (case.settings.p, case.settings.local_factor) = (730, 1_150);
    }))
}

/// "Zones and nodes with only type 3 TEC print as before": zones and nodes of type 3 alone, and type 3 in every one.
fn add_places(list: &mut List) {
    let base = marked_zones();
    list.accepted("no type 3, to compare", &base, |_| ());
    list.accepted("zone 1 of type 3 alone", &base, |case| make_links(case, &[0]));
    list.accepted("zone 2 of type 3 alone", &base, |case| make_links(case, &[1]));
    let joined = |case: &mut Case| case.nodes[1].generation_zone = 1;
    list.accepted("a node of type 3 alone in a zone that pays", &base, |case| (joined(case), make_links(case, &[0])).1);
    let third = |case: &mut Case| case.stations.push(link("LINK_C", "NODC", 30_000));
    list.solved("zone 3 of type 3 alone, where nothing was", &base, third);
    let every = |case: &mut Case| {
        third(case);
        case.stations.push(link("LINK_A", "NODA", 20_000));
        case.stations.insert(1, link("LINK_B", "NODB", 10_000));
    };
    list.solved("type 3 at every node and in every zone, two of them with another", &base, every);
    let last = |case: &mut Case| {
        every(case);
        make_all_links(case);
        case.stations.push(station("LAST", "NODC", 7));
    };
    list.solved("type 3 at every node and in every zone, one of them with another", &base, last);
    let mut empty = marked_zones();
    empty.settings.generation_zones = 5;
    list.accepted("zone 1 of type 3 alone, zones 3 to 5 without kilowatts", &empty, |case| make_links(case, &[0]));
    let middle = |case: &mut Case| {
        case.settings.generation_zones = 32;
        (case.nodes[0].generation_zone, case.nodes[1].generation_zone) = (32, 17);
        make_links(case, &[0]);
    };
    list.accepted("zone 32 of 32 of type 3 alone", &base, middle);
}

/// A node's TEC split between type 3 and another: only the other part pays, and stations are sums whatever their order.
fn add_mixed_nodes(list: &mut List) {
    let base = marked_zones();
    for (kw, what) in [(1, "1 kW"), (60_000, "some"), (199_999, "all but 1 kW")] {
        let split = |case: &mut Case| {
            case.stations[0].tec -= kw;
            case.stations.push(link("LINK_A", "NODA", kw));
        };
        list.accepted(format!("{what} of NODA of type 3"), &base, split);
        let first = |case: &mut Case| (split(case), case.stations.reverse()).1;
        list.accepted(format!("{what} of NODA of type 3, its row first"), &base, first);
    }
    let many = |case: &mut Case| {
        case.stations[0].tec = 140_000;
        case.stations.insert(0, link("LINK_1", "NODA", 20_000));
        case.stations.push(link("LINK_2", "NODA", 30_000));
        case.stations.push(link("LINK_3", "NODA", 10_000));
    };
    list.accepted("some of NODA of type 3, in three stations", &base, many);
    let turned = |case: &mut Case| {
        make_links(case, &[0]);
        case.stations[0].tec = 60_000;
        case.stations.push(station("GEN_3", "NODA", 140_000));
    };
    list.accepted("some of NODA of type 3, in the first station", &base, turned);
    let types = |case: &mut Case| {
        case.stations[0].tec = 200_000 - 6 * 11_111;
        case.stations[1].plant = INTERCONNECTOR;
        for plant in 1..=6 {
            let row = station(&format!("TYPE_{plant}"), "NODA", 11_111);
            case.stations.push(StationRow { plant, ..row });
        }
    };
    list.accepted("all seven types at NODA, type 3 alone at NODB", &base, types);
}

/// "Type 3 TEC stays in .. zonal weights": a zone of two nodes whose weights would turn its metres.
fn add_weights(list: &mut List) {
    for p in [0, 499, 1_000] {
        let set = |case: &mut Case| case.settings.p = p;
        list.accepted(format!("KILN with NODA of type 3, p {p}"), &kiln(), |case| {
            (set(case), make_links(case, &[0])).1
        });
        list.accepted(format!("KILN with NODB of type 3, p {p}"), &kiln(), |case| {
            (set(case), make_links(case, &[1])).1
        });
    }
    list.accepted("KILN with NODA of type 3", &kiln(), |case| make_links(case, &[0]));
    // Weighed by what pays, averages of 0.5 and -0.5 m would be 0 and -1 m.
    for reference in [2, 1] {
        let case = apart(1, reference, [50_000, 50_000], [10_000, 10_000]);
        let label = format!("an average of half a metre from row {reference}, A of type 3");
        list.accepted(label, &case, |case| make_links(case, &[0]));
    }
}

/// Stations of type 3 without kilowatts are nothing, and a zone of them alone has none.
fn add_zero_kilowatts(list: &mut List) {
    let base = marked_zones();
    let none = |node: &'static str| move |case: &mut Case| case.stations.push(link("NONE", node, 0));
    list.accepted("a station of type 3 with 0 kW at NODA", &base, none("NODA"));
    list.accepted("a station of type 3 with 0 kW at NODC: its zone `-`, no L line", &base, none("NODC"));
    let only = |case: &mut Case| {
        make_links(case, &[0]);
        case.stations.push(StationRow { plant: 1, ..station("NONE", "NODA", 0) });
    };
    list.accepted("zone 1 of type 3 and another type with 0 kW", &base, only);
    let both = |case: &mut Case| {
        none("NODC")(case);
        case.stations.push(station("NONE_2", "NODC", 0));
        make_links(case, &[1]);
    };
    list.accepted("stations of type 3 and another with 0 kW at NODC, NODB of type 3", &base, both);
}

/// Residuals below zero, revenues of nothing and nearly the greatest, local income alone.
fn add_money(list: &mut List) {
    let base = marked_zones();
    for places in [&[0], &[1]] {
        let node = ["NODA", "NODB"][places[0]];
        for (revenue, p) in [(0, 0), (0, 730), (7, 1_000), (9_999_999_999, 0), (9_999_999_999, 999)] {
            let set = |case: &mut Case| {
                (case.settings.revenue, case.settings.p) = (revenue, p);
                make_links(case, places);
            };
            list.accepted(format!("{node} of type 3, revenue {revenue}, p {p}"), &base, set);
        }
        let local = |case: &mut Case| {
            case.circuits.iter_mut().for_each(|row| row.mark = 1);
            case.settings.revenue = 0;
            make_links(case, places);
        };
        list.solved(format!("{node} of type 3, all marked, revenue 0: local income alone"), &base, local);
    }
    let split = |case: &mut Case| {
        case.circuits.iter_mut().for_each(|row| row.mark = 1);
        case.stations[1].tec = 30_000;
        case.stations.push(link("LINK_B", "NODB", 70_000));
    };
    list.solved("most of NODB of type 3, all marked", &base, split);
}

/// TUT1 with each station and each two of type 3; larger texts with some.
fn add_texts(list: &mut List) {
    let tut1 = named_case("TUT1");
    for places in [&[1][..], &[2], &[0, 1], &[0, 2], &[1, 2]] {
        let nodes: Vec<&str> = places.iter().map(|place| ["SUBA", "SUBB", "SUBD"][*place]).collect();
        let label = format!("TUT1 with {} of type 3", nodes.join(" and "));
        list.accepted(label, &tut1, |case| make_links(case, places));
    }
    for text in ["CUSC1421", "CUSC1422", "TUT8_TARIFF"] {
        let every_second = |case: &mut Case| {
            case.stations.iter_mut().step_by(2).for_each(|row| row.plant = INTERCONNECTOR);
        };
        list.accepted(format!("{text} with every second station of type 3"), &named_case(text), every_second);
    }
}

/// Every other type pays: alone, and with 1 kW beside type 3.
fn add_every_type(list: &mut List) {
    for plant in PAYING {
        // Type 7 alone is KILN itself.
        if plant != 7 {
            let all = |case: &mut Case| case.stations.iter_mut().for_each(|row| row.plant = plant);
            list.accepted(format!("KILN of type {plant} alone"), &kiln(), all);
        }
        let one = |case: &mut Case| {
            make_all_links(case);
            case.stations[1].tec -= 1;
            case.stations.push(StationRow { plant, ..station("ONE", "NODB", 1) });
        };
        list.accepted(format!("1 kW of type {plant} beside type 3"), &marked_zones(), one);
        let two = |case: &mut Case| (case.stations[0].plant, case.stations[1].plant) = (plant, INTERCONNECTOR);
        list.accepted(format!("NODA of type {plant}, NODB of type 3, p 500"), &marked_zones(), |case| {
            two(case);
            case.settings.p = 500;
        });
    }
}

/// "Type 3 TEC stays in scaling": base solutions of tables without it are out of balance.
fn add_scaling(list: &mut List) {
    let base = marked_zones();
    let only_b = solved(&changed(&base, |case| (case.stations[0].tec, case.stations[1].tec) = (0, 150_000)));
    let wrong = |case: &mut Case| {
        make_links(case, &[0]);
        case.runs = only_b.runs.clone();
    };
    list.refused("NODA of type 3, solved as if it weren't scaled", &base, wrong, (9, 1, 1));
    let only_a = solved(&changed(&base, |case| (case.stations[0].tec, case.stations[1].tec) = (150_000, 0)));
    let wrong = |case: &mut Case| {
        make_links(case, &[1]);
        case.runs = only_a.runs.clone();
    };
    list.refused("NODB of type 3, solved as if it weren't scaled", &base, wrong, (9, 1, 1));
    // Missing kilowatts go to the first nodes, whatever their type.
    for place in 0..3 {
        let label = format!("three nodes of 1 kW, demand 2 kW, G{} of type 3", place + 1);
        list.accepted(label, &star(&[1, 1, 1], 2), |case| make_links(case, &[place]));
    }
}

/// 13 and its neighbours: type 3 alone at, above and below demand.
fn add_refused(list: &mut List) {
    let base = marked_zones();
    let tec = |kw: u32| {
        solved(&changed(&base, |case| (case.stations[0].tec, case.stations[1].tec) = (100_000, kw - 100_000)))
    };
    list.refused("type 3 alone", &base, make_all_links, THIRTEEN);
    list.refused("type 3 alone, TEC equal to demand", &tec(150_000), make_all_links, THIRTEEN);
    list.refused("type 3 alone, TEC one above demand", &tec(150_001), make_all_links, THIRTEEN);
    list.refused("type 3 alone, TEC one below demand", &tec(149_999), make_all_links, (7, 0, 0));
    let none = |case: &mut Case| {
        make_all_links(case);
        case.stations.iter_mut().for_each(|row| row.tec = 0);
    };
    list.refused("type 3 alone, no TEC", &base, none, (7, 0, 0));
    let no_demand = |case: &mut Case| {
        make_all_links(case);
        case.nodes.iter_mut().for_each(|row| row.demand = 0);
    };
    list.refused("type 3 alone, no demand", &base, no_demand, (7, 0, 0));
    let zeros = |case: &mut Case| {
        make_all_links(case);
        case.own_runs_mut().iter_mut().for_each(|run| run.fill(0));
    };
    list.refused("type 3 alone, solutions of zeros", &base, zeros, THIRTEEN);
    for text in ["TUT1", "CUSC1421", "LINKS"] {
        list.refused(format!("{text} of type 3 alone"), &named_case(text), make_all_links, THIRTEEN);
    }
}

/// 13 and 7 at the ends of the totals.
fn add_refused_totals(list: &mut List) {
    let of = |demand: u32, tec: u32| {
        move |case: &mut Case| {
            (case.nodes[0].demand, case.stations[0].tec) = (demand, tec);
            make_all_links(case);
        }
    };
    let alone = named_case("ALONE");
    list.refused("ALONE with 1 kW and 1 kW of type 3", &alone, of(1, 1), THIRTEEN);
    list.refused("ALONE with 1 kW of demand and 20,000,000 of type 3", &alone, of(1, 20_000_000), THIRTEEN);
    list.refused("ALONE with 2 kW of demand and 1 of type 3", &alone, of(2, 1), (7, 0, 0));
    list.refused("ALONE with 1 kW of demand and none of type 3", &alone, of(1, 0), (7, 0, 0));
    let greatest = greatest_totals();
    list.refused("100,000,000 kW of type 3 alone", &greatest, make_all_links, THIRTEEN);
    let more = |plant: u32, tec: u32| {
        move |case: &mut Case| {
            make_all_links(case);
            case.stations.push(StationRow { plant, ..station("MORE", "GENR", tec) });
        }
    };
    list.refused("100,000,001 kW of type 3 alone", &greatest, more(INTERCONNECTOR, 1), (7, 0, 0));
    list.refused("100,000,000 kW of type 3 and 1 of another", &greatest, more(7, 1), (7, 0, 0));
    list.refused("100,000,000 kW of type 3 and none of another", &greatest, more(7, 0), THIRTEEN);
    let one_less = |case: &mut Case| {
        more(7, 1)(case);
        case.stations[0].tec -= 1;
    };
    list.solved("99,999,999 kW of type 3 and 1 of another", &greatest, one_less);
    // By what pays TEC would be below demand.
    list.accepted("80,000,000 kW of type 3 and 20,000,000 of another", &greatest, |case| {
        make_links(case, &[0, 1, 2, 3])
    });
    list.solved("TEC equal to demand, one of two stations of type 3", &kiln(), |case| {
        (case.stations[0].tec, case.stations[1].tec) = (100_000, 50_000);
        make_links(case, &[0]);
    });
}

/// Other types without kilowatts don't help.
fn add_nothing_of_others(list: &mut List) {
    let base = marked_zones();
    let with = |plants: &[u32]| {
        let rows: Vec<StationRow> = plants
            .iter()
            .map(|plant| StationRow { plant: *plant, ..station(&format!("NONE_{plant}"), "NODA", 0) })
            .collect();
        move |case: &mut Case| {
            make_all_links(case);
            case.stations.extend(rows.clone());
        }
    };
    for plant in PAYING {
        list.refused(format!("type 3, and type {plant} with 0 kW"), &base, with(&[plant]), THIRTEEN);
    }
    list.refused("type 3, and every other type with 0 kW", &base, with(&PAYING), THIRTEEN);
    list.refused("type 3, and every type with 0 kW", &base, with(&[1, 2, 3, 4, 5, 6, 7]), THIRTEEN);
    let first = |case: &mut Case| (with(&[7])(case), case.stations.reverse()).1;
    list.refused("type 3, and before it type 7 with 0 kW", &base, first, THIRTEEN);
    let only = |case: &mut Case| {
        case.stations.iter_mut().for_each(|row| row.tec = 0);
        make_links(case, &[0]);
    };
    list.refused("type 3 and type 7, both with 0 kW", &base, only, (7, 0, 0));
}

/// 1 before 13: files that aren't whole.
fn add_one_before(list: &mut List) {
    let case = changed(&marked_zones(), make_all_links);
    let file = case.bytes();
    list.file("type 3 alone, cut by a byte", file[..file.len() - 1].to_vec(), ONE);
    list.file("type 3 alone, and a byte more", [&file[..], &[0]].concat(), ONE);
    list.refused("1 before 13: the settings' zero", &case, |case| case.settings.zero = 13, (1, 0, 0));
    list.refused("1 before 13: base one row longer", &case, |case| case.runs[0].push(0), (1, 0, 0));
    list.refused("1 before 13: local one row shorter", &case, |case| case.runs[2].truncate(5), (1, 0, 0));
}

/// 13 with each other fault, with all behind it, and each fault before it with it and all behind it.
fn add_orders(list: &mut List) {
    let base = kiln_with_a_spur();
    let behind = FAULTS.iter().position(|((number, ..), _)| *number == 8).expect("a fault of 8");
    list.refused(said(THIRTEEN), &base, make_all_links, THIRTEEN);
    let all_behind = |case: &mut Case| {
        FAULTS[behind..].iter().rev().for_each(|(_, fault)| fault(case));
        make_all_links(case);
    };
    list.refused("13 before all behind it", &base, all_behind, THIRTEEN);
    for (answer, fault) in &FAULTS[..behind] {
        let both = |case: &mut Case| (make_all_links(case), fault(case)).1;
        list.refused(format!("{} before 13", said(*answer)), &base, both, *answer);
        let all = |case: &mut Case| (all_behind(case), fault(case)).1;
        list.refused(format!("{} before 13 and all behind it", said(*answer)), &base, all, *answer);
    }
    for (other, fault) in &FAULTS[behind..] {
        let both = |case: &mut Case| (fault(case), make_all_links(case)).1;
        list.refused(format!("13 before {}", said(*other)), &base, both, THIRTEEN);
        let one = |case: &mut Case| {
            both(case);
            case.stations[0].plant = 1;
        };
        list.refused(format!("{} where some of the TEC pays", said(*other)), &base, one, *other);
    }
}

/// 13 before a potential of the reference other than 0, in each system.
fn add_reference_potentials(list: &mut List) {
    for (system, label) in ["base", "wider", "local"].into_iter().enumerate() {
        let set = |case: &mut Case| {
            case.runs[system][2] = 1;
            make_all_links(case);
        };
        list.refused(format!("13 before {label}: the reference's potential 1"), &marked_zones(), set, THIRTEEN);
    }
}

/// ALONE with so much demand, stations of these plant types and TECs, so much revenue and p.
pub(super) fn alone_with(demand: u32, tec: &[(u32, u32)], revenue: u64, p: u32) -> Case {
    let mut case = named_case("ALONE");
    let node = case.nodes[0].name;
    let rows = tec.iter().enumerate();
    case.stations = rows
        .map(|(place, (plant, tec))| StationRow {
            identifier: name(&format!("ST_{place}")),
            node,
            plant: *plant,
            tec: *tec,
        })
        .collect();
    case.nodes[0].demand = demand;
    (case.settings.revenue, case.settings.p) = (revenue, p);
    case
}

/// Step 10 over chargeable kilowatts: remainders one below them, which all TEC would not leave.
fn add_remainders(list: &mut List) {
    // Without distances the rest is revenue x (1000 - p) x 1,000; a million and one is 101 x 9,901.
    for (chargeable, links) in [(101, 1), (9_901, 5), (9_901, 20_000_000), (1_000_001, 5_000_000)] {
        let label = format!("a remainder of {}, one below {chargeable} kW beside {links} of type 3", chargeable - 1);
        list.accepted(label, &alone_with(100, &[(7, chargeable), (INTERCONNECTOR, links)], 1, 0), |_| ());
    }
    // The greatest remainder beside type 3: 1,000 r is one below a multiple of 99,999,999.
    const MOST: u32 = 20_000_000;
    let tec = [(1, MOST), (2, MOST), (4, MOST), (5, MOST), (7, MOST - 1), (INTERCONNECTOR, 1)];
    list.accepted("a remainder of 99,999,998, beside 1 kW of type 3", &alone_with(MOST, &tec, 99_899_999, 999), |_| ());
    list.accepted("3 kW beside 4 of type 3, revenue 1", &alone_with(7, &[(INTERCONNECTOR, 4), (6, 3)], 1, 500), |_| ());
}

/// One chargeable kilowatt beside much of type 3, and the greatest figures with either side of type 3.
fn add_greatest(list: &mut List) {
    const GREATEST: u64 = 10_000_000_000;
    for p in [0, 999, 1_000] {
        let case = alone_with(1, &[(INTERCONNECTOR, 19_999_999), (7, 1)], GREATEST, p);
        list.accepted(format!("1 kW beside 19,999,999 of type 3, the greatest revenue, p {p}"), &case, |_| ());
    }
    // Stations at L1 .. L5 and GENR in turn.
    for (what, pays) in [("GENR of type 3", [true, false]), ("all but GENR of type 3", [false, true])] {
        for (p, revenue) in [(0, GREATEST), (500, 0), (1_000, GREATEST)] {
            let set = |case: &mut Case| {
                let rows = case.stations.iter_mut().enumerate();
                rows.filter(|(place, _)| !pays[place % 2]).for_each(|(_, row)| row.plant = INTERCONNECTOR);
            };
            let label = format!("greatest figures, {what}, p {p}, revenue {revenue}");
            list.accepted(label, &greatest_figures(p, revenue), set);
        }
    }
    for (p, revenue) in [(0, GREATEST), (1_000, GREATEST), (0, 0)] {
        let set = |case: &mut Case| make_links(case, &[1, 2, 3, 4, 5, 6, 7, 8, 9]);
        list.accepted(
            format!("greatest figures, all but 1 kW of type 3, p {p}, revenue {revenue}"),
            &greatest_figures(p, revenue),
            set,
        );
    }
    // A residual of 17 digits in every zone.
    list.solved("a long sheet, all but 1 kW of type 3", &long_sheet(), |case| {
        make_all_links(case);
        case.stations[4].plant = 7;
        case.settings.p = 0;
    });
}
