//! 02, CR 6: the figures of sound share files: boundaries, factors, parts along chains, kilowatts of the shared tariff, money.

use super::bases::{circuit, divide, kiln, named_case, zoned_node};
use super::edition_2::as_edition_2;
use super::zones::{around_a_hub, plant_at, share, share_of, Outer, LOAD};
use super::{changed, solved, List, Told};
use crate::file::{Case, CircuitRow};
use crate::random::random_of_edition_2;
use crate::random_share;
use crate::sharing::zones_with_tec;
use crate::tables::sound_tables;
use crate::{judge_case, text};

/// Texts, factors, roundings, chains, kilowatts, zones, money, halves, the greatest figures, cases by chance.
pub fn add(list: &mut List) {
    add_texts(list);
    add_halves_of_tec(list);
    add_proportions(list);
    add_roundings(list);
    add_trees(list);
    add_load_factors(list);
    add_kilowatts(list);
    add_links(list);
    add_centres(list);
    add_money(list);
    add_halves_of_tariffs(list);
    add_divided(list);
    add_long_chains(list);
    add_chance(list);
}

/// A case that is accepted with this share file.
fn accepted(list: &mut List, label: impl Into<String>, case: &Case, bytes: Vec<u8>) {
    list.shared(label, case.bytes(), bytes, Told::Sheet);
}

/// The share file of the folder of texts.
const TUT3_SHARE: &str = include_str!("../../../cases/TUT3_SHARE.share.txt");

/// The texts of edition 2 with share files, the tutorial's from other references too.
fn add_texts(list: &mut List) {
    let bytes = text::share::make(TUT3_SHARE.as_bytes()).expect("a text without faults");
    accepted(list, "TUT3_SHARE", &named_case("TUT3_E2"), bytes.clone());
    accepted(list, "TUT3_NOPEAK and TUT3_SHARE's file", &named_case("TUT3_NOPEAK"), bytes.clone());
    for reference in [2, 3] {
        let case = solved(&changed(&named_case("TUT3_E2"), |case| case.settings.reference = reference));
        accepted(list, format!("TUT3_SHARE from row {reference}"), &case, bytes.clone());
    }
    for next in [[4, 1, 0, 0], [0, 1, 0, 2], [2, 0, 0, 1], [4, 4, 0, 0], [0, 1, 0, 1]] {
        accepted(list, format!("TUT3_E2, next {next:?}"), &named_case("TUT3_E2"), share(&next));
    }
    for next in [[2, 3, 0, 0], [2, 0, 2, 0], [0, 1, 2, 0], [3, 3, 0, 0]] {
        accepted(list, format!("SEVEN, next {next:?}"), &named_case("SEVEN"), share(&next));
    }
}

/// S1 at 500,000 m with 2,000 kW of type 1 and of type 3, and more; HUB is the centre.
fn add_halves_of_tec(list: &mut List) {
    let of = |tec: &[(u32, u32)]| around_a_hub(&[Outer { metres: 500_000, tec }]);
    let half = of(&[(1, 2_000), (3, 2_000)]);
    accepted(list, "low carbon half of what is behind", &half, share(&[2, 0]));
    // 1 kW more tips the balance where its type is low carbon.
    for plant in 1..=7 {
        let mut tec = vec![(1, 2_000), (3, 2_000)];
        match tec.iter_mut().find(|(known, _)| *known == plant) {
            Some((_, kw)) => *kw += 1,
            None => tec.push((plant, 1)),
        }
        accepted(list, format!("1 kW of type {plant} beside two halves"), &of(&tec), share(&[2, 0]));
    }
    accepted(list, "low carbon 1 kW below half", &of(&[(1, 1_999), (3, 2_000)]), share(&[2, 0]));
    accepted(list, "low carbon 1 kW above half of an odd total", &of(&[(1, 2_000), (3, 1_999)]), share(&[2, 0]));
}

/// Low carbon alone, none, and proportions between, of every type.
fn add_proportions(list: &mut List) {
    let rows: [(&str, &[(u32, u32)]); 9] = [
        ("type 1 alone", &[(1, 2_000)]),
        ("type 2 alone", &[(2, 2_000)]),
        ("types 1, 2 and 4", &[(1, 2_000), (2, 1_000), (4, 501)]),
        ("type 3 alone", &[(3, 1_000)]),
        ("types 3, 5, 6 and 7", &[(3, 1_000), (5, 700), (6, 300), (7, 99)]),
        ("two thirds low carbon", &[(1, 2_000), (3, 1_000)]),
        ("one third low carbon", &[(1, 2_000), (3, 1_000), (5, 3_000)]),
        ("all low carbon but 1 kW", &[(1, 5_000), (7, 1)]),
        ("all types", &[(1, 2_001), (2, 1_003), (3, 700), (4, 11), (5, 13), (6, 17), (7, 19)]),
    ];
    for (what, tec) in rows {
        accepted(list, format!("{what} behind"), &around_a_hub(&[Outer { metres: 499_999, tec }]), share(&[2, 0]));
    }
}

/// "rounded down towards minus infinity": distances of both signs between S1, with two thirds low carbon, with low carbon alone and
/// with all but 1 kW, and S2, the centre.
fn add_roundings(list: &mut List) {
    let thirds: &[(u32, u32)] = &[(1, 2_000), (3, 1_000)];
    let second = |metres: u32| Outer { metres, tec: &[(3, 1_000), (7, 200)] };
    for distance in [-100_000i64, -7, -4, -3, -2, -1, 0, 1, 2, 3, 4, 7, 100_000] {
        let metres = (200_000 + distance) as u32;
        let case = around_a_hub(&[Outer { metres, tec: thirds }, second(200_000)]);
        accepted(list, format!("two thirds of {distance} m"), &case, share(&[2, 0, 2]));
    }
    for distance in [-7i64, 7] {
        let metres = (20 + distance) as u32;
        let case = around_a_hub(&[Outer { metres, tec: &[(1, 2_000)] }, second(20)]);
        accepted(list, format!("nothing of {distance} m"), &case, share(&[2, 0, 2]));
    }
    for distance in [-2_501i64, -2_500, -1, 1, 2_500, 2_501] {
        let metres = (3_000 + distance) as u32;
        let case = around_a_hub(&[Outer { metres, tec: &[(1, 5_000), (7, 1)] }, second(3_000)]);
        accepted(list, format!("two 5,001ths of {distance} m"), &case, share(&[2, 0, 2]));
    }
}

/// Five zones with TEC, and a sixth without: every boundary has a fraction of its own. HUB is in zone 5.
fn five_zones() -> Case {
    let outers = [
        Outer { metres: 1_000, tec: &[(1, 2_000), (3, 1_000)] },
        Outer { metres: 7_003, tec: &[(1, 2_000), (2, 1_001), (7, 500)] },
        Outer { metres: 2_501, tec: &[(2, 3_000), (4, 700), (3, 1_000)] },
        Outer { metres: 4_999, tec: &[(1, 1_501), (3, 500), (5, 1_203)] },
    ];
    changed(&around_a_hub(&outers), |case| case.settings.generation_zones = 6)
}

/// Trees over the five zones, each zone the centre; the deepest chains both ways.
const TREES: [[u32; 6]; 16] = [
    [5, 5, 5, 5, 0, 0],
    [2, 3, 4, 5, 0, 0],
    [0, 1, 2, 3, 4, 0],
    [2, 0, 2, 2, 2, 0],
    [3, 3, 0, 3, 3, 0],
    [4, 4, 4, 0, 4, 0],
    [2, 5, 2, 2, 0, 0],
    [3, 3, 5, 3, 0, 0],
    [2, 4, 4, 5, 0, 0],
    [4, 1, 2, 0, 3, 0],
    [3, 1, 0, 1, 4, 0],
    [2, 0, 4, 2, 4, 0],
    [5, 3, 1, 2, 0, 0],
    [0, 1, 1, 2, 2, 0],
    [4, 3, 0, 3, 1, 0],
    [3, 4, 2, 5, 0, 0],
];

/// Every tree over the five zones.
fn add_trees(list: &mut List) {
    for next in TREES {
        accepted(list, format!("five zones, next {next:?}"), &five_zones(), share(&next));
    }
}

/// "each plant type's load factor": none, all, one alone; type 3's makes no difference.
fn add_load_factors(list: &mut List) {
    let (case, next) = (five_zones(), TREES[1]);
    for factor in [0, 1, 500, 999, 1_000] {
        accepted(list, format!("five zones, every load factor {factor}"), &case, share_of(&next, [factor; 7]));
    }
    for plant in 1..=7 {
        let alone = std::array::from_fn(|place| if place + 1 == plant { 1_000 } else { 0 });
        accepted(list, format!("five zones, load factor 1000 of type {plant} alone"), &case, share_of(&next, alone));
    }
    for factor in [0, 1_000] {
        let other = [LOAD[0], LOAD[1], factor, LOAD[3], LOAD[4], LOAD[5], LOAD[6]];
        accepted(list, format!("five zones, load factor {factor} of type 3"), &case, share_of(&next, other));
    }
}

/// "added up and rounded down to a kilowatt": thousandths of several types that make one together, and one thousandth less.
fn add_kilowatts(list: &mut List) {
    let case = around_a_hub(&[Outer { metres: 300_000, tec: &[(1, 2_001), (5, 1_001), (6, 1), (7, 1)] }]);
    for (what, load) in [
        ("halves of two types", [500, 0, 0, 0, 500, 0, 0]),
        ("halves of four types", [500, 0, 0, 0, 500, 500, 500]),
        ("a thousandth less than one", [0, 0, 0, 0, 0, 500, 499]),
        ("one of halves", [0, 0, 0, 0, 0, 500, 500]),
        ("a thousandth of each", [1, 1, 1, 1, 1, 1, 1]),
        ("999 thousandths of each", [999, 999, 999, 999, 999, 999, 999]),
    ] {
        accepted(list, format!("shared kilowatts: {what}"), &case, share_of(&[2, 0], load));
    }
}

/// Zones of type 3 alone, which pay nothing: behind a boundary, between two, the centre.
fn add_links(list: &mut List) {
    let outers = [
        Outer { metres: 9_000, tec: &[(1, 2_000), (2, 500)] },
        Outer { metres: 4_000, tec: &[(3, 1_500)] },
        Outer { metres: 6_500, tec: &[(1, 1_400), (5, 333)] },
    ];
    let case = around_a_hub(&outers);
    for next in [[2, 3, 4, 0], [4, 1, 4, 0], [2, 0, 2, 2], [3, 1, 4, 0]] {
        accepted(list, format!("zone 2 of type 3 alone, next {next:?}"), &case, share(&next));
    }
}

/// One zone of two nodes, the centre alone: all of its metres aren't shared. And a centre off the reference.
fn add_centres(list: &mut List) {
    let alone = changed(&around_a_hub(&[Outer { metres: 8_000, tec: &[(1, 2_000), (7, 100)] }]), |case| {
        case.settings.generation_zones = 1;
        case.nodes.iter_mut().for_each(|row| row.generation_zone = 1);
    });
    accepted(list, "one zone of two nodes", &alone, share(&[0]));
    accepted(list, "one zone of two nodes, every load factor 1000", &alone, share_of(&[0], [1_000; 7]));
    for reference in 1..=4 {
        let case = solved(&changed(&five_zones(), |case| case.settings.reference = reference));
        accepted(list, format!("five zones from row {reference}"), &case, share(&TREES[8]));
    }
}

/// Shares, revenues, constants and factors at their ends; residuals below zero.
fn add_money(list: &mut List) {
    let base = five_zones();
    for p in [0, 1, 730, 1_000] {
        let case = changed(&base, |case| case.settings.p = p);
        accepted(list, format!("five zones, p {p}"), &case, share(&TREES[9]));
    }
    for (p, revenue) in [(0, 0), (500, 0), (1_000, 0), (500, 7), (0, 10_000_000_000)] {
        let case = changed(&base, |case| (case.settings.p, case.settings.revenue) = (p, revenue));
        accepted(list, format!("five zones, p {p}, revenue {revenue}"), &case, share(&TREES[10]));
    }
    for (constant, wider, local) in [(1, 1_000, 1_000), (10_000, 5_000, 5_000), (1_007, 1_799, 1_001)] {
        let case = changed(&base, |case| {
            (case.settings.constant, case.settings.wider_factor, case.settings.local_factor) = (constant, wider, local)
        });
        accepted(
            list,
            format!("five zones, constant {constant}, factors {wider} and {local}"),
            &case,
            share(&TREES[11]),
        );
    }
}

/// Step 9: tariffs of a hundredth of the shared metres, and of a half, of both signs: HUB or S1 is the centre.
fn add_halves_of_tariffs(list: &mut List) {
    for metres in [49, 50, 51, 150] {
        let case = changed(&around_a_hub(&[Outer { metres, tec: &[(3, 1_000), (5, 100)] }]), |case| {
            (case.settings.constant, case.settings.wider_factor) = (1, 1_000)
        });
        accepted(list, format!("a shared tariff of {metres} hundredths"), &case, share(&[2, 0]));
        accepted(list, format!("a shared tariff of -{metres} hundredths"), &case, share(&[0, 1]));
    }
}

/// Stations divided and in another order: the same sheet as whole.
fn add_divided(list: &mut List) {
    let whole = five_zones();
    let halved = changed(&whole, |case| divide(case, |tec| vec![tec / 2, tec - tec / 2]));
    accepted(list, "five zones divided: stations in two", &halved, share(&TREES[12]));
    let turned = changed(&whole, |case| case.stations.reverse());
    accepted(list, "five zones divided: stations turned round", &turned, share(&TREES[12]));
}

/// HIGH and LOW 10^7 m above and below MID, the reference: HIGH sends, of type 3 and year round alone, all that LOW asks for. They
/// are in the last zone, with HIGH's metres; zones 1, 2, .. before it have a node each with so much of a type, at LOW or HIGH in turn,
/// zone 1 at the place named. Their types stand still year round and share at peak.
fn high_and_low(tec: &[(u32, u32)], first: &str) -> Case {
    let far = |first, second| CircuitRow { factor: 20_000, ..circuit(first, second, 1, 500_000) };
    let last = tec.len() as u32 + 1;
    let mut case = Case { settings: kiln().settings, ..Case::default() };
    (case.settings.generation_zones, case.settings.reference) = (last, 2);
    case.nodes = ["HIGH", "MID", "LOW"].map(|text| zoned_node(text, last, 1, 0)).into();
    case.nodes[2].demand = 4_000;
    case.circuits = vec![far("HIGH", "MID"), far("MID", "LOW")];
    case.stations = vec![plant_at("HIGH", 3, 4_000)];
    let turns = ["HIGH", "LOW", "HIGH"].into_iter().skip_while(|place| *place != first).take(2).cycle();
    for (((plant, kw), zone), place) in tec.iter().zip(1..).zip(turns) {
        let text = format!("Z{zone}");
        case.nodes.push(zoned_node(&text, zone, 1, 0));
        case.circuits.push(circuit(&text, place, 1, 0));
        case.stations.push(plant_at(&text, *plant, *kw));
    }
    solved(&as_edition_2(&case))
}

/// Types and TECs of 31 zones, from the outermost: carbon and low carbon in turn. Each of low carbon takes the factor of its boundary
/// down to a half, and the next, of carbon, takes it back to 1.
fn swinging() -> Vec<(u32, u32)> {
    let pairs = (0..14).map(|pair| 12 * 3u32.pow(pair));
    [(7, 2), (4, 6), (7, 4)].into_iter().chain(pairs.flat_map(|kw| [(4, kw), (7, kw)])).collect()
}

/// Chains of 32 zones. Where the factor swings while the distance turns round each time, shared metres pass the zones' own by far:
/// 15 x 10^7 m from HIGH, and -17 x 10^7 m from LOW, whose last boundary counts too.
fn add_long_chains(list: &mut List) {
    let inward: Vec<u32> = (2..=32).chain([0]).collect();
    let outward: Vec<u32> = (0..32).collect();
    let star: Vec<u32> = (1..=32).map(|zone| if zone == 17 { 0 } else { 17 }).collect();
    let even: Vec<(u32, u32)> = (0..31).map(|turn| ([4, 7, 4, 4, 7][turn as usize % 5], 1_000 + 37 * turn)).collect();
    let case = high_and_low(&even, "HIGH");
    accepted(list, "a chain of 32 zones, high and low", &case, share(&inward));
    accepted(list, "a chain of 32 zones, high and low, turned round", &case, share(&outward));
    accepted(list, "32 zones around one, high and low", &case, share(&star));
    for (first, p, revenue) in
        [("HIGH", 500, 100_000), ("LOW", 500, 100_000), ("LOW", 0, 0), ("LOW", 1_000, 10_000_000_000)]
    {
        let case = changed(&high_and_low(&swinging(), first), |case| {
            (case.settings.constant, case.settings.wider_factor) = (10_000, 5_000);
            (case.settings.p, case.settings.revenue) = (p, revenue);
        });
        let label = format!("shared metres of a swinging chain from {first}, p {p}, revenue {revenue}");
        accepted(list, label, &case, share(&inward));
    }
}

/// Small cases with sound files, and with spoiled ones.
fn add_chance(list: &mut List) {
    for (turn, (seed, case)) in cases_by_chance().take(90).enumerate() {
        let tables = sound_tables(&case).expect("sound tables");
        if turn < 50 {
            let bytes = random_share::sound(&tables, seed).bytes();
            list.shared(format!("shared by chance {seed}"), case.bytes(), bytes, Told::Open);
        } else {
            let spoiled = random_share::spoiled(&tables, seed);
            let label = format!("shared by chance {seed}, {}", spoiled.kind);
            list.shared(label, case.bytes(), spoiled.bytes, Told::Open);
        }
    }
}

/// Accepted cases of edition 2 by chance, each node in a zone of its own but for every fifth: at least three zones with TEC, and
/// year round distances.
fn cases_by_chance() -> impl Iterator<Item = (u64, Case)> {
    let drawn = |seed: u64| {
        let mut case = random_of_edition_2(seed, 4 + seed % 6);
        case.settings.generation_zones = case.nodes.len() as u32;
        case.nodes.iter_mut().zip(1..).for_each(|(row, zone)| row.generation_zone = zone - (zone % 5 == 4) as u32);
        case
    };
    let with_tec =
        |case: &Case| zones_with_tec(&sound_tables(case).expect("sound tables")).into_iter().filter(|has| *has).count();
    let kept = move |case: &Case| {
        let distances = case.runs[1].iter().take(case.nodes.len()).any(|potential| *potential != 0);
        distances && judge_case(&case.bytes(), case.lent()).is_ok() && with_tec(case) >= 3
    };
    (9_000u64..).map(move |seed| (seed, drawn(seed))).filter(move |(_, case)| kept(case))
}
