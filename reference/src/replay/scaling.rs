//! 02, CR 5: what runs in each background by the table of 14.15.7, and 14.

use super::bases::{circuit, node, pair, station};
use super::edition_2::{as_edition_2, BASES};
use super::interconnectors::alone_with;
use super::{List, Told};
use crate::file::{Case, StationRow};

/// 02, CR 5: "14, system 0 row 0".
pub(super) const FOURTEEN: Told = Told::Refused(14, 0, 0);
/// 01 and 02, CR 1: what goes before it.
const SEVEN: Told = Told::Refused(7, 0, 0);
pub(super) const THIRTEEN: Told = Told::Refused(13, 0, 0);
/// 01: the greatest TEC of a station and demand of a node.
const MOST: u32 = 20_000_000;

/// Limits of 14, what goes before it, percentages, shares.
pub fn add(list: &mut List) {
    add_fixed_limits(list);
    add_variable_limits(list);
    add_peak_limits(list);
    add_both(list);
    add_before(list);
    add_percentages(list);
    add_percentages_apart(list);
    add_past_32_bits(list);
    add_each_type(list);
    add_missing(list);
    add_shares_by_node(list);
    add_nothing_remains(list);
    add_fixed_and_variable(list);
    add_divided(list);
}

/// One node with so much demand and stations of these types and kW, and solutions of a zero: whatever passes 14 is accepted.
fn add_alone(list: &mut List, what: &str, demand: u32, tec: &[(u32, u32)], told: Told) {
    let case = as_edition_2(&alone_with(demand, tec, 100_000, 500));
    let plants: Vec<String> = tec.iter().map(|(plant, kw)| format!("{kw} of type {plant}")).collect();
    list.file(format!("{what}: {demand} kW of demand, {}", plants.join(", ")), case.bytes(), told);
}

/// 14.15.7: the fixed types year round, and what 1,000 kW of them run at.
const FIXED: [(u32, u32); 4] = [(1, 700), (2, 850), (3, 1_000), (5, 500)];

/// Year round, each fixed type alone beside type 6, which runs at peak alone: demand below what it runs at, equal and above,
/// also with a kilowatt of a variable type.
fn add_fixed_limits(list: &mut List) {
    for (plant, runs) in FIXED {
        let of = |more: &[(u32, u32)]| [&[(plant, 1_000), (6, 2_000)], more].concat();
        add_alone(list, "fixed one above demand", runs - 1, &of(&[]), FOURTEEN);
        add_alone(list, "fixed equal to demand, nothing variable", runs, &of(&[]), Told::Sheet);
        add_alone(list, "one remains, nothing variable", runs + 1, &of(&[]), FOURTEEN);
        add_alone(list, "fixed equal to demand, one variable", runs, &of(&[(4, 1)]), Told::Sheet);
        add_alone(list, "one remains, one variable", runs + 1, &of(&[(7, 1)]), Told::Sheet);
        add_alone(list, "two remain, one variable", runs + 2, &of(&[(7, 1)]), FOURTEEN);
    }
}

/// Year round, types 4 and 7 are variable and type 6 runs at nothing.
fn add_variable_limits(list: &mut List) {
    for plant in [4, 7] {
        add_alone(list, "variable equal to demand", 1_000, &[(plant, 1_000)], Told::Sheet);
        add_alone(list, "variable equal to demand", 1_000, &[(plant, 1_000), (6, 500)], Told::Sheet);
        add_alone(list, "variable one below demand", 1_000, &[(plant, 999), (6, 500)], FOURTEEN);
        add_alone(list, "variable above demand", 1_000, &[(plant, 1_001)], Told::Sheet);
    }
    add_alone(list, "two variable types equal to demand", 1_000, &[(4, 500), (7, 500)], Told::Sheet);
    add_alone(list, "two variable types one below demand", 1_000, &[(4, 500), (7, 499), (6, 1)], FOURTEEN);
    add_alone(list, "type 6 alone", 1, &[(6, 1_000)], FOURTEEN);
    add_alone(list, "type 6 and one variable", 1, &[(6, 1_000), (7, 1)], Told::Sheet);
    add_alone(list, "type 6 and one variable", 2, &[(6, 1_000), (7, 1)], FOURTEEN);
    add_alone(list, "fixed equal to demand, much variable", 1_000, &[(3, 1_000), (7, MOST)], Told::Sheet);
    add_alone(list, "fixed one above demand, much variable", 1_000, &[(3, 1_001), (7, MOST)], FOURTEEN);
}

/// At peak types 1 and 3 run at nothing and the others are variable. Year round has what it needs to a kilowatt.
fn add_peak_limits(list: &mut List) {
    let just: [&[(u32, u32)]; 8] = [
        &[(1, 1_000), (3, 300), (7, 1_000)],
        &[(2, 1_000), (3, 150)],
        &[(3, 1_000), (6, 1_000)],
        &[(4, 1_000), (3, 0)],
        &[(5, 1_000), (3, 500)],
        &[(7, 1_000), (1, 0)],
        &[(2, 200), (4, 200), (5, 200), (6, 200), (7, 200), (3, 600)],
        &[(6, 700), (1, 1_000), (4, 300)],
    ];
    for tec in just {
        add_alone(list, "variable equal to demand at peak", 1_000, tec, Told::Sheet);
    }
    let less: [&[(u32, u32)]; 8] = [
        &[(1, 1_000), (3, 300), (7, 999)],
        &[(2, 999), (3, 151)],
        &[(3, 1_000), (6, 999)],
        &[(4, 999), (3, 1)],
        &[(5, 999), (3, 501)],
        &[(7, 999), (3, 1)],
        &[(2, 200), (4, 200), (5, 200), (6, 199), (7, 200), (3, 600)],
        &[(6, 699), (1, 1_000), (4, 300)],
    ];
    for tec in less {
        add_alone(list, "variable one below demand at peak", 1_000, tec, FOURTEEN);
    }
}

/// Either background, or both.
fn add_both(list: &mut List) {
    add_alone(list, "fixed above, too little at peak", 1_000, &[(3, 1_001), (6, 999)], FOURTEEN);
    add_alone(list, "too little in both", 1_000, &[(6, 999), (1, 1)], FOURTEEN);
    add_alone(list, "type 1 alone", 700, &[(1, 1_000)], FOURTEEN);
    add_alone(list, "type 1 alone", 1_000, &[(1, 2_000)], FOURTEEN);
    add_alone(list, "type 2 alone", 850, &[(2, 1_000)], Told::Sheet);
    add_alone(list, "type 2 alone", 851, &[(2, 1_000)], FOURTEEN);
    add_alone(list, "type 5 alone", 500, &[(5, 1_000)], Told::Sheet);
    add_alone(list, "type 5 alone", 499, &[(5, 1_000)], FOURTEEN);
    // 3,050 kW are fixed year round and 2,000 variable; at peak 5,000 are variable.
    let all = [1, 2, 3, 4, 5, 6, 7].map(|plant| (plant, 1_000));
    add_alone(list, "all types", 4_050, &all, Told::Sheet);
    add_alone(list, "all types, fixed equal to demand", 3_050, &all, Told::Sheet);
    add_alone(list, "all types, fixed one above demand", 3_049, &all, FOURTEEN);
    add_alone(list, "all types, equal to demand at peak", 5_000, &all, Told::Sheet);
    add_alone(list, "all types, one below demand at peak", 5_001, &all, FOURTEEN);
}

/// 7 and 13 before 14.
fn add_before(list: &mut List) {
    add_alone(list, "13 before 14", 999, &[(3, 1_000)], THIRTEEN);
    add_alone(list, "13, type 3 equal to demand", 1_000, &[(3, 1_000)], THIRTEEN);
    add_alone(list, "13 before 14", 1_000, &[(3, 1_001), (7, 0), (6, 0)], THIRTEEN);
    add_alone(list, "14, not 13, by a kilowatt", 1_000, &[(3, 1_001), (6, 1)], FOURTEEN);
    add_alone(list, "7 before 14", 1_000, &[(3, 500), (6, 499)], SEVEN);
    add_alone(list, "7 before 14", 1_000, &[(1, 999)], SEVEN);
    add_alone(list, "7 before 13 and 14", 1_000, &[(3, 999)], SEVEN);
    add_alone(list, "7 before 14, no demand", 0, &[(3, 1_000), (7, 1_000)], SEVEN);
    add_alone(list, "14, TEC equal to demand", 1_000, &[(7, 999), (1, 1)], FOURTEEN);
    let most = |last: u32| [(3, MOST), (3, MOST), (3, MOST), (3, MOST), (3, last), (6, 1)];
    add_alone(list, "7 before 14, TEC above its total", 1_000, &most(MOST), SEVEN);
    add_alone(list, "14, TEC at its total", 1_000, &most(MOST - 1), FOURTEEN);
}

/// "per node and type, rounded down": of the stations' sum, and of each type alone.
fn add_percentages(list: &mut List) {
    let sums: [(u32, &[u32], u32); 7] = [
        (1, &[1, 1], 1),
        (1, &[5, 5], 7),
        (1, &[4, 4, 4], 8),
        (2, &[10, 10], 17),
        (2, &[3, 3, 3, 3], 10),
        (5, &[1, 1], 1),
        (5, &[3, 3], 3),
    ];
    for (plant, tec, runs) in sums {
        let stations: Vec<(u32, u32)> = tec.iter().map(|kw| (plant, *kw)).chain([(6, 100)]).collect();
        add_alone(list, "fixed of a sum equal to demand", runs, &stations, Told::Sheet);
        add_alone(list, "one remains beside fixed of a sum", runs + 1, &stations, FOURTEEN);
        // Without demand it would be 7.
        if runs > 1 {
            add_alone(list, "fixed of a sum one above demand", runs - 1, &stations, FOURTEEN);
        }
    }
    // 3.5 and 0.5, 8.5 and 3.5, 0.7, 0.85 and 0.5: each is rounded down, and the whole between them is lost.
    let types: [(&[(u32, u32)], u32); 3] = [
        (&[(1, 5), (5, 1), (6, 9)], 3),
        (&[(2, 10), (1, 5), (6, 9)], 11),
        (&[(1, 1), (2, 1), (5, 1), (3, 1), (6, 9)], 1),
    ];
    for (tec, runs) in types {
        add_alone(list, "fixed of each type equal to demand", runs, tec, Told::Sheet);
        add_alone(list, "one remains beside fixed of each type", runs + 1, tec, FOURTEEN);
    }
}

/// Nodes G1, G2, .. with stations of these types and kW around LOAD, the reference, which has all demand; joined without
/// length. The base solutions are of so many kW at each, year round and at peak.
fn around(plants: &[&[(u32, u32)]], demand: u32, runs: [&[i64]; 2]) -> Case {
    let text = |place: usize| format!("G{}", place + 1);
    let mut case = pair(demand, Vec::new());
    case.nodes = (0..plants.len()).map(|place| node(&text(place), 0)).chain([node("LOAD", demand)]).collect();
    case.settings.reference = case.nodes.len() as u32;
    case.circuits = (0..plants.len()).map(|place| circuit(&text(place), "LOAD", 1, 0)).collect();
    let rows = plants.iter().enumerate().flat_map(|(place, own)| own.iter().map(move |of| (place, *of)));
    let row = |(turn, (place, (plant, kw)))| StationRow { plant, ..station(&format!("ST_{turn}"), &text(place), kw) };
    case.stations = rows.enumerate().map(row).collect();
    let mut case = as_edition_2(&case);
    for (run, kw) in BASES.into_iter().zip(runs) {
        case.runs[run] = kw.iter().chain(&[0]).chain(kw).map(|kw| 1_000_000 * kw).collect();
    }
    case
}

/// What runs is accepted, and every other spread of demand is 9 of its system at the first node where it differs.
fn add_around(list: &mut List, what: &str, plants: &[&[(u32, u32)]], right: [&[i64]; 2], wrong: &[(usize, &[i64])]) {
    let demand = right[0].iter().sum::<i64>() as u32;
    list.accepted(format!("{what}: {:?} and {:?}", right[0], right[1]), &around(plants, demand, right), |_| ());
    for (of, kw) in wrong {
        let mut runs = right;
        runs[*of] = kw;
        let row = right[*of].iter().zip(*kw).position(|(right, wrong)| right != wrong).expect("another spread") + 1;
        let (word, system) = [("year round", 1), ("at peak", 4)][*of];
        list.refused(format!("{what}: {kw:?} {word}"), &around(plants, demand, runs), |_| (), (9, system, row as u32));
    }
}

/// Percentages of one node aren't those of another, and 9 tells which.
fn add_percentages_apart(list: &mut List) {
    let two: &[&[(u32, u32)]] = &[&[(1, 5)], &[(1, 5), (6, 20)]];
    add_around(list, "70% of 5 at each of two nodes", two, [&[3, 3], &[0, 6]], &[(0, &[4, 2]), (0, &[2, 4])]);
    let case = around(two, 7, [&[3, 4], &[0, 7]]);
    list.refused("70% of 5 at each of two nodes aren't 7", &case, |_| (), (14, 0, 0));
    let stations: &[&[(u32, u32)]] = &[&[(1, 1), (1, 1)], &[(7, 9)]];
    add_around(list, "70% of 1 and 1 at a node", stations, [&[1, 2], &[0, 3]], &[(0, &[0, 3]), (1, &[1, 2])]);
    let stations: &[&[(u32, u32)]] = &[&[(2, 10), (2, 10)], &[(7, 40)]];
    add_around(list, "85% of 10 and 10 at a node", stations, [&[17, 13], &[10, 20]], &[(0, &[16, 14]), (1, &[9, 21])]);
    let stations: &[&[(u32, u32)]] = &[&[(7, 9)], &[(5, 1), (6, 1), (5, 1)]];
    add_around(list, "50% of 1 and 1 at a node", stations, [&[2, 1], &[3, 0]], &[(0, &[3, 0]), (1, &[2, 1])]);
    let types: &[&[(u32, u32)]] = &[&[(1, 5), (5, 1)], &[(7, 9)]];
    add_around(list, "70% of 5 and 50% of 1 at a node", types, [&[3, 6], &[1, 8]], &[(0, &[4, 5]), (1, &[0, 9])]);
}

/// 100,000,000 kW of a type at GENR. Demand is there and, alike, at four nodes behind LOAD, the reference.
fn greatest(plant: u32, demand: u32) -> Case {
    let part = demand / 5;
    let four = ["L1", "L2", "L3", "L4"];
    let mut case = pair(0, vec![circuit("GENR", "LOAD", 1, 0)]);
    case.settings.reference = 2;
    case.nodes[0].demand = demand - 4 * part;
    case.nodes.extend(four.map(|text| node(text, part)));
    case.circuits.extend(four.map(|text| circuit("LOAD", text, 1, 0)));
    case.stations =
        four.iter().chain(&["L5"]).map(|text| StationRow { plant, ..station(text, "GENR", MOST) }).collect();
    let mut case = as_edition_2(&case);
    let flow = 1_000_000 * part as i64;
    for run in BASES {
        case.runs[run] = vec![4 * flow, 0, -flow, -flow, -flow, -flow, 4 * flow, flow, flow, flow, flow];
    }
    case
}

/// Percentages of 100,000,000 kW, and shares whose products pass 32 bits.
fn add_past_32_bits(list: &mut List) {
    for (plant, demand) in [(2, 85_000_000), (5, 50_000_000)] {
        let label = |what: &str| format!("fixed kilowatts of 100,000,000 of type {plant} {what}");
        list.accepted(label("equal to demand"), &greatest(plant, demand), |_| ());
        list.refused(label("one above demand"), &greatest(plant, demand - 1), |_| (), (14, 0, 0));
        list.refused(label("one below demand"), &greatest(plant, demand + 1), |_| (), (14, 0, 0));
    }
    // 15,000,000 of 20,000,000 kW: three quarters, in both.
    let great: &[&[(u32, u32)]] = &[&[(7, 11_999_996)], &[(4, 8_000_004)]];
    let right: &[i64] = &[8_999_997, 6_000_003];
    add_around(list, "three quarters of 20,000,000 kW", great, [right, right], &[(1, &[8_999_998, 6_000_002])]);
}

/// 14.15.7: 1,200 kW of each type at G1 beside 2,400 of type 7 at G2, demand 1,500.
fn add_each_type(list: &mut List) {
    let year_round = [840, 1_020, 1_200, 500, 600, 0, 500];
    let peak = [0, 500, 0, 500, 500, 500, 500];
    for (plant, (fixed, at_peak)) in (1..).zip(year_round.into_iter().zip(peak)) {
        let plants: &[&[(u32, u32)]] = &[&[(plant, 1_200)], &[(7, 2_400)]];
        let of = |kw: i64| [kw, 1_500 - kw];
        let (right, other) = ([of(fixed), of(at_peak)], [of(fixed + 1), of(at_peak + 1)]);
        let what = format!("1,200 kW of type {plant} beside 2,400 of type 7");
        add_around(list, &what, plants, [&right[0], &right[1]], &[(0, &other[0]), (1, &other[1])]);
        if fixed != at_peak {
            let case = around(plants, 1_500, [&right[1], &right[0]]);
            list.refused(format!("{what}, the backgrounds exchanged"), &case, |_| (), (9, 1, 1));
        }
    }
}

/// "01's rule for .. missing kilowatts": to the first nodes whose share left something over, in each background.
fn add_missing(list: &mut List) {
    let three: &[&[(u32, u32)]] = &[&[(7, 1)], &[(4, 1)], &[(7, 1)]];
    let wrong: [(usize, &[i64]); 4] = [(0, &[0, 1, 1]), (0, &[1, 0, 1]), (1, &[0, 1, 1]), (1, &[1, 0, 1])];
    add_around(list, "three nodes of 1 kW, two of them run", three, [&[1, 1, 0], &[1, 1, 0]], &wrong);
    let exact: &[&[(u32, u32)]] = &[&[(7, 2)], &[(7, 1)], &[(7, 1)]];
    let wrong: [(usize, &[i64]); 2] = [(0, &[2, 0, 0]), (1, &[1, 0, 1])];
    add_around(list, "nodes of 2, 1 and 1 kW, half of them run", exact, [&[1, 1, 0], &[1, 1, 0]], &wrong);
    // 7 of 10 kW are fixed year round, and two of three others run; at peak 30 kW of type 6 take it nearly all.
    let beside: &[&[(u32, u32)]] = &[&[(1, 10), (6, 30)], &[(7, 1)], &[(7, 1)], &[(7, 1)]];
    let wrong: [(usize, &[i64]); 3] = [(0, &[7, 0, 1, 1]), (1, &[8, 1, 0, 0]), (1, &[8, 0, 0, 1])];
    add_around(list, "missing kilowatts beside fixed ones", beside, [&[7, 1, 1, 0], &[9, 0, 0, 0]], &wrong);
    // A percentage that leaves something over is no share that does.
    let fixed: &[&[(u32, u32)]] = &[&[(1, 1)], &[(7, 1)], &[(7, 2)]];
    let wrong: [(usize, &[i64]); 2] = [(0, &[1, 0, 1]), (1, &[1, 0, 1])];
    add_around(list, "70% of 1 kW and no missing kilowatt", fixed, [&[0, 1, 1], &[0, 1, 1]], &wrong);
    // Year round the missing kilowatt is G2's, at peak G1's.
    let other: &[&[(u32, u32)]] = &[&[(6, 1)], &[(7, 1)], &[(7, 1)]];
    let wrong: [(usize, &[i64]); 3] = [(0, &[1, 0, 0]), (0, &[0, 0, 1]), (1, &[0, 1, 0])];
    add_around(list, "one missing kilowatt, not the same in both", other, [&[0, 1, 0], &[1, 0, 0]], &wrong);
}

/// Variable types share by node, whatever their types: half of 2, 1 and 1 kW are 1, and one of the two others.
fn add_shares_by_node(list: &mut List) {
    let right: [&[i64]; 2] = [&[1, 1, 0], &[1, 1, 0]];
    let wrong: [(usize, &[i64]); 2] = [(0, &[2, 0, 0]), (1, &[2, 0, 0])];
    add_around(list, "types 4 and 7 at a node", &[&[(4, 1), (7, 1)], &[(7, 1)], &[(7, 1)]], right, &wrong);
    add_around(list, "two stations of type 7 at a node", &[&[(7, 1), (7, 1)], &[(7, 1)], &[(7, 1)]], right, &wrong);
    let peak: &[&[(u32, u32)]] = &[&[(6, 1), (5, 1)], &[(7, 1)], &[(4, 1)]];
    add_around(list, "types 5 and 6 at a node", peak, [&[0, 1, 1], &[1, 1, 0]], &[(1, &[2, 0, 0]), (1, &[1, 0, 1])]);
    let five: &[&[(u32, u32)]] = &[&[(2, 1), (4, 1), (5, 1), (6, 1), (7, 1)], &[(7, 3)], &[(7, 2)]];
    // Year round 6 kW of 4 and 7 at G1, G2 and G3 by 2, 3 and 2; at peak by 5, 3 and 2.
    add_around(list, "five types at a node", five, [&[2, 3, 1], &[3, 2, 1]], &[(0, &[2, 2, 2]), (1, &[4, 1, 1])]);
}

/// "or run at 0 where none remains", with variable TEC and without.
fn add_nothing_remains(list: &mut List) {
    for plant in [4, 6, 7] {
        let plants: &[&[(u32, u32)]] = &[&[(3, 5)], &[(plant, 5)]];
        let what = format!("nothing remains for type {plant}");
        add_around(list, &what, plants, [&[5, 0], &[0, 5]], &[(0, &[4, 1]), (1, &[1, 4])]);
    }
    let plants: &[&[(u32, u32)]] = &[&[(1, 10), (2, 20)], &[(5, 14), (7, 20)]];
    add_around(list, "nothing remains of 31 kW", plants, [&[24, 7], &[12, 19]], &[(0, &[23, 8]), (1, &[11, 20])]);
}

/// All seven types at G1, 2,000 kW of type 7 at G2, demand 5,000: year round 3,050 and 975 of 1,950 that remain.
fn add_fixed_and_variable(list: &mut List) {
    let plants: &[&[(u32, u32)]] =
        &[&[(1, 1_000), (2, 1_000), (3, 1_000), (4, 1_000), (5, 1_000), (6, 1_000), (7, 1_000)], &[(7, 2_000)]];
    let right: [&[i64]; 2] = [&[4_025, 975], &[3_572, 1_428]];
    let wrong: [(usize, &[i64]); 3] = [(0, &[4_024, 976]), (1, &[3_571, 1_429]), (1, &[4_025, 975])];
    add_around(list, "all types at a node", plants, right, &wrong);
}

/// Stations divided, in another order and with 0 kW: the same kilowatts, and the same sheet.
fn add_divided(list: &mut List) {
    let runs: [&[i64]; 2] = [&[19, 13], &[10, 22]];
    let ways: [(&str, &[&[(u32, u32)]]); 4] = [
        ("whole", &[&[(1, 10), (2, 15)], &[(7, 30), (6, 3)]]),
        ("in two", &[&[(1, 5), (1, 5), (2, 8), (2, 7)], &[(7, 15), (7, 15), (6, 1), (6, 2)]]),
        ("in many", &[&[(1, 1), (2, 14), (1, 8), (1, 1), (2, 1)], &[(6, 1), (7, 29), (6, 1), (7, 1), (6, 1)]]),
        ("with 0 kW", &[&[(2, 15), (1, 10), (1, 0), (3, 0)], &[(6, 3), (7, 30), (4, 0)]]),
    ];
    for (what, plants) in ways {
        list.accepted(format!("stations divided: {what}"), &around(plants, 32, runs), |_| ());
    }
}
