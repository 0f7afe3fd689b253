//! 02, CR 2, "Mirror the halves": a half goes away from zero in steps 6 to 9, and generation and demand mirror each other.

mod common;

use common::*;
use reference::charges::{demand_metres, nodal_metres, residual, scaled_generation, tariff, zones, ZoneRow};
use reference::file::Case;
use reference::quantities::{nearest, Kw, Metres, MicroPerKw};
use reference::replay::cases;
use reference::solver::solved;

#[test]
fn halves_and_their_neighbours() {
    // Twelfths: 5, 6 and 7, 17, 18 and 19, 29, 30 and 31 of them, and their negatives.
    let edges = [(5, 0), (6, 1), (7, 1), (17, 1), (18, 2), (19, 2), (29, 2), (30, 3), (31, 3)];
    for (twelfths, whole) in edges {
        assert_eq!(nearest(twelfths, 12), whole, "{twelfths}");
        assert_eq!(nearest(-twelfths, 12), -whole, "-{twelfths}");
    }
    let halves: Vec<i128> = (-5..=5).map(|number| nearest(number, 2)).collect();
    assert_eq!(halves, [-3, -2, -2, -1, -1, 0, 1, 1, 2, 2, 3]);
    // The greatest of all: 10^16 nm, and a half below it.
    assert_eq!(nearest(-9_999_999_500_000_000, 1_000_000_000), -10_000_000);
    assert_eq!(nearest(-9_999_999_499_999_999, 1_000_000_000), -9_999_999);
}

#[test]
fn the_nearest_of_a_negative_is_the_negative_of_the_nearest() {
    for divisor in 1..=24 {
        for number in 0..=120 {
            assert_eq!(nearest(-number, divisor), -nearest(number, divisor), "{number} / {divisor}");
            let away = 2 * (divisor * nearest(number, divisor) - number);
            assert!(-divisor < away && away <= divisor, "{number} / {divisor}");
        }
    }
}

#[test]
fn metres_of_halves() {
    let edges = [
        (499_999_999, 0),
        (500_000_000, 1),
        (1_499_999_999, 1),
        (1_500_000_000, 2),
        (2_499_999_999, 2),
        (2_500_000_000, 3),
        (9_999_999_499_999_999, 9_999_999),
        (9_999_999_500_000_000, 10_000_000),
    ];
    for (nanometres, metres) in edges {
        assert_eq!(nodal_metres(nanometres), Metres(metres), "{nanometres}");
        assert_eq!(nodal_metres(-nanometres), Metres(-metres), "-{nanometres}");
        assert_eq!(demand_metres(nodal_metres(-nanometres)), Metres(metres), "demand, -{nanometres}");
    }
}

/// The metres of a zone whose nodes have these metres and kilowatts.
fn average(rows: &[(i128, i128)]) -> i128 {
    let row = |(metres, kw): &(i128, i128)| ZoneRow {
        zone: 1,
        metres: Metres(*metres),
        weight: Kw(*kw),
        chargeable: Kw(*kw),
    };
    let rows: Vec<ZoneRow> = rows.iter().map(row).collect();
    zones(1, &rows)[0].metres.expect("kilowatts to weigh with").0
}

#[test]
fn averages_of_halves() {
    let edges: [(&[(i128, i128)], i128); 8] = [
        (&[(-1, 50), (0, 50)], -1),
        (&[(-1, 50), (0, 51)], 0),
        (&[(-1, 51), (0, 50)], -1),
        (&[(-3, 10), (0, 10)], -2),
        (&[(-2, 1), (0, 3)], -1),
        (&[(-10, 1), (0, 3)], -3),
        (&[(-1, 1), (-2, 1), (3, 4)], 2),
        (&[(1, 1), (-2, 1), (-1, 2)], -1),
    ];
    for (rows, metres) in edges {
        assert_eq!(average(rows), metres, "{rows:?}");
    }
}

#[test]
fn averaging_and_turning_round_may_change_places() {
    for first in -4..=4 {
        for second in -4..=4 {
            for (one, other) in [(1, 1), (1, 2), (1, 3), (2, 3), (3, 5)] {
                let rows = [(first, one), (second, other)];
                let turned = rows.map(|(metres, kw)| (-metres, kw));
                assert_eq!(average(&turned), -average(&rows), "{rows:?}");
            }
        }
    }
}

#[test]
fn tariffs_of_halves() {
    let edges = [
        (49, 1, 1_000, 0),
        (50, 1, 1_000, 1),
        (51, 1, 1_000, 1),
        (149, 1, 1_000, 1),
        (150, 1, 1_000, 2),
        (40, 3, 1_249, 1),
        (40, 3, 1_250, 2),
        (40, 3, 1_251, 2),
        (9_999_999, 9_990, 5_000, 4_994_999_501),
    ];
    for (metres, constant, factor, expected) in edges {
        assert_eq!(tariff(Metres(metres), constant, factor), MicroPerKw(expected), "{metres}");
        assert_eq!(tariff(Metres(-metres), constant, factor), MicroPerKw(-expected), "-{metres}");
    }
}

#[test]
fn residuals_and_scaled_generation_are_still_rounded_down() {
    assert_eq!(residual(-20_000, Kw(40_000)), (MicroPerKw(-1), 20_000));
    assert_eq!(residual(-19_999, Kw(40_000)), (MicroPerKw(-1), 20_001));
    assert_eq!(residual(-60_000, Kw(40_000)), (MicroPerKw(-2), 20_000));
    assert_eq!(residual(20_000, Kw(40_000)), (MicroPerKw(0), 20_000));
    assert_eq!(residual(60_000, Kw(40_000)), (MicroPerKw(1), 20_000));
    assert_eq!(scaled_generation(&[Kw(1), Kw(1)], Kw(1), Kw(2)), [Kw(1), Kw(0)]);
    assert_eq!(scaled_generation(&[Kw(3), Kw(3), Kw(6)], Kw(6), Kw(12)), [Kw(2), Kw(1), Kw(3)]);
}

/// Sheets of cases of the replay's list, worked out from the documents apart from this program.
const SHEETS: [(&str, &str); 22] = [
    // A tariff is 18 a metre, a side's income 18 m x 20,000 kW, its target 5 x 10^10: 1,250,000 less 9 a metre.
    (
        "wider 0.5 m and -0.5 m",
        "\
C 0
G 1 1 1 18 1249991 1250009
G 2 -1 -1 -18 1249991 1249973
D 1 -1 -1 -18 1249991 1249973
D 2 1 1 18 1249991 1250009
L UP 0 0
L DOWN 0 0
R 0 0
",
    ),
    (
        "wider 2.5 m and -2.5 m, 1 nm nearer to zero",
        "\
C 0
G 1 2 2 36 1249982 1250018
G 2 -2 -2 -36 1249982 1249946
D 1 -2 -2 -36 1249982 1249946
D 2 2 2 36 1249982 1250018
L UP 0 0
L DOWN 0 0
R 0 0
",
    ),
    // A local tariff is 10 a metre.
    (
        "local 1.5 m and -1.5 m",
        "\
C 0
G 1 0 0 0 1249990 1249990
G 2 0 0 0 1249990 1249990
D 1 0 0 0 1250000 1250000
D 2 0 0 0 1250000 1250000
L UP 2 20
L DOWN -2 -20
R 0 0
",
    ),
    // LOAD at -1.5 m: -2, and 2 for demand; C is 2 x 1,000 / 2,100.
    (
        "wider -1.4 m, and misses to -1.5 m",
        "\
C 1
G 1 0 1 18 45454527 45454545
D 1 2 1 18 49999982 50000000
L GENR 0 0
L LOAD 0 0
R 500 0
",
    ),
    // Generation 5 x 50 / 100, demand 5 x 10 / 20; C is (3 x 20 + 5 x 70 + 3 x 100) / 190, 3.74.
    (
        "averages of -2.5 m and 2.5 m",
        "\
C 4
G 1 -3 1 18 499982 500000
G 2 -
D 1 3 -1 -18 555545 555527
D 2 5 1 18 555545 555563
L A 0 0
L B 0 0
R 0 50000
",
    ),
    // A, at 2 m, has a quarter of the weights. C is (-1 x 20 - 1 x 100) / 190, -0.63.
    (
        "averages of 0.5 m and -0.5 m, weights 1 to 3",
        "\
C -1
G 1 1 0 0 500000 500000
G 2 -
D 1 -1 0 0 555541 555541
D 2 0 1 18 555541 555559
L A 0 0
L B 0 0
R 0 50000
",
    ),
    (
        "C of -0.5 m",
        "\
C -1
G 1 1 0 0 50000000 50000000
G 2 -
D 1 -
D 2 0 1 18 49999982 50000000
L GENR 0 0
R 0 0
",
    ),
    // C is -3 x 10,000 / 20,001.
    (
        "C of -1.5 m, p 1,000, LOAD heavier by 1 kW",
        "\
C -1
G 1 3 2 36 -9 27
G 2 0 -1 -18 -9 -27
D 1 -
D 2 0 1 18 4999982 5000000
L GENR 0 0
L LOAD 0 0
R 27 0
",
    ),
    // 40 m x 3 x 1,250 / 100,000.
    (
        "wider tariffs of 1.5 and -1.5, 40 m",
        "\
C 0
G 1 40 40 2 1249999 1250001
G 2 -40 -40 -2 1249999 1249997
D 1 -40 -40 -2 1249999 1249997
D 2 40 40 2 1249999 1250001
L UP 0 0
L DOWN 0 0
R 0 0
",
    ),
    // C is 100 m x (30 - 10) / 40.
    (
        "wider tariffs of 0.5, 1.5, -0.5 and -1.5 after C, p 0",
        "\
C 50
G 1 100 150 2 2499998 2500000
G 2 -100 -50 -1 2499998 2499997
D 1 -100 -150 -2 -1 -3
D 2 100 50 1 -1 0
L UP 0 0
L DOWN 0 0
R 30000 30000
",
    ),
    (
        "local tariffs of 0.5 and -0.5, 50 m",
        "\
C 0
G 1 0 0 0 1249999 1249999
G 2 0 0 0 1249999 1249999
D 1 0 0 0 1250000 1250000
D 2 0 0 0 1250000 1250000
L UP 50 1
L DOWN -50 -1
R 20000 0
",
    ),
    // Metres 1 and -1; averages of HUB with DOWN and with UP -1; C is -(60 - 20) / 80; tariffs 2 m / 4.
    (
        "halves of steps 6 to 9, p 1,000",
        "\
C -1
G 1 1 0 0 0 0
G 2 -1 -2 -1 0 -1
D 1 -1 0 0 1249999 1249999
D 2 1 2 1 1249999 1250000
L UP 0 0
L HUB 0 0
L DOWN 0 0
R 20000 20000
",
    ),
    // Incomes of 20,000 over 40,000 kW.
    (
        "rests of -0.5 a kW on both sides",
        "\
C 0
G 1 1 1 1 -1 0
G 2 -1 -1 -1 -1 -2
D 1 -1 -1 -1 -1 -2
D 2 1 1 1 -1 0
L UP 0 0
L DOWN 0 0
R 20000 20000
",
    ),
    // A local income of 3 x (10,000 - 30,000), over 40,000 kW.
    (
        "generation's rest of 1.5 a kW by local income",
        "\
C 0
G 1 0 0 0 1 1
G 2 0 0 0 1 1
D 1 -
D 2 0 0 0 0 0
L UP 1 3
L DOWN -1 -3
R 20000 0
",
    ),
    // A target of 12.5 a kW, less 2 x 20,000 / 40,000.
    (
        "rests of 11.5 a kW on both sides",
        "\
C 0
G 1 1 1 2 11 13
G 2 -1 -1 -2 11 9
D 1 -1 -1 -2 11 9
D 2 1 1 2 11 13
L UP 0 0
L DOWN 0 0
R 20000 20000
",
    ),
    // Zone 1 stands at 0 and -1 m. C is (1 x 40 + 7 x 50 + 1 x 40 - 2 x 50) / 180, 1.83.
    (
        "opposite zones, averages of a half, from EAST",
        "\
C 2
G 1 -1 1 1 555554 555555
G 2 2 4 2 555554 555556
D 1 1 -1 -1 555554 555553
D 2 7 5 3 555554 555557
L SEND 0 0
L EAST 0 0
L WEST 0 0
R 0 30000
",
    ),
    // NODB at -20,999.5 m. C is (32,001 x 100 + 21,000 x 50 + 3 x 21,000 x 30) / 600, 10,233.5.
    (
        "KILN with zones and NODB at 20,999.5 m, p 250, in the mirror",
        "\
C 10234
G 1 0 10234 184212 58054 242266
G 2 -21000 -10766 -193788 58054 -135734
D 1 32001 21767 391806 174200 566006
D 2 21000 10766 193788 174200 367988
D 3 -
L NODB 0 0
L NODC 0 0
R 100000 0
",
    ),
    // END has 1,000 kW of TEC and 9,000 of demand: C is 10^7 x (9 + 1) / 20.
    (
        "wider -9,999,999.5 m",
        "\
C 5000000
G 1 0 5000000 90000000 -67000000 23000000
G 2 -10000000 -5000000 -90000000 -67000000 -157000000
D 1 0 -5000000 -90000000 -67000000 -157000000
D 2 10000000 5000000 90000000 -67000000 23000000
L TOP 0 0
L END 0 0
R 0 0
",
    ),
    // Generation's zones weigh 40,000 kW each.
    (
        "C of -9,999,999.5 m, p 1,000",
        "\
C -10000000
G 1 -
G 2 9999999 -1 -18 9 -9
G 3 10000000 0 0 9 9
D 1 0 10000000 180000000 -133750003 46249997
D 2 -9999999 1 18 -133750003 -133749985
D 3 -10000000 0 0 -133750003 -133750003
L NEAR 0 0
L FAR 0 0
R 0 60000
",
    ),
    // 9,999,999 x 9,990 x 5,000 / 100,000.
    (
        "local tariff of -4,994,999,500.5",
        "\
C 0
G 1 0 0 0 1249374937 1249374937
G 2 0 0 0 1249374937 1249374937
G 3 -
D 1 -
D 2 0 0 0 625000 625000
D 3 -
L TOP 0 0
L NEAR -9999999 -4994999501
L FAR -10000000 -4995000000
R 50000 0
",
    ),
    // B weighs, and does not pay: C is (1 x 20 + 1 x 70 + 1 x 50) / 140.
    (
        "an average of -0.5 m, B of type 3",
        "\
C 1
G 1 -1 0 0 1000000 1000000
G 2 -
D 1 1 0 0 555555 555555
D 2 1 0 0 555555 555555
L A 0 0
L B 0 0
R 0 50000
",
    ),
    // C is -3 x 1,000 / 2,000, and not -3 x 1,000 / 2,500.
    (
        "C of -1.5 m over what pays",
        "\
C -2
G 1 3 1 18 49999982 50000000
G 2 0 -2 -36 49999982 49999946
D 1 -
D 2 0 2 36 49999964 50000000
L GENR 0 0
L LOAD 0 0
R 0 0
",
    ),
];

#[test]
fn sheets_in_full() {
    let list = cases();
    for (label, sheet) in SHEETS {
        assert_eq!(sheet_of(&list, label), sheet, "{label}");
    }
}

#[test]
fn sheets_of_halves_are_those_of_their_neighbours_farther_from_zero() {
    let list = cases();
    let mut halves = 0;
    for case in &list {
        if let Some(half) = case.label.strip_suffix(", 1 nm farther from zero") {
            assert_eq!(sheet_of(&list, half), sheet_of(&list, &case.label), "{half}");
            assert_ne!(sheet_of(&list, half), sheet_of(&list, &format!("{half}, 1 nm nearer to zero")), "{half}");
            halves += 1;
        }
    }
    assert_eq!(halves, 11);
}

/// Metres, metres after C and tariff of a side's first zone.
fn first_zone(sheet: &str, letter: &str) -> [i64; 3] {
    let line = sheet.lines().find_map(|line| line.strip_prefix(&format!("{letter} 1 "))).expect("zone 1");
    let figures: Vec<i64> = line.split(' ').map(|figure| figure.parse().unwrap()).collect();
    [figures[0], figures[1], figures[2]]
}

#[test]
fn zones_of_the_same_nodes_and_weights_are_opposite() {
    let list = cases();
    for end in ["EAST", "WEST"] {
        for what in ["averages of a half", "averages of three halves", "metres of three halves"] {
            let sheet = sheet_of(&list, &format!("opposite zones, {what}, from {end}"));
            let [generation, demand] = ["G", "D"].map(|letter| first_zone(&sheet, letter));
            assert_eq!(generation, demand.map(|figure| -figure), "{sheet}");
            assert!(generation.iter().all(|figure| *figure != 0), "{sheet}");
        }
    }
}

/// What the mirror makes of a sheet without local charges: C with the other sign, generation's lines and remainder for
/// demand's.
fn turned_round(sheet: &str) -> String {
    let lines = |letter: char| sheet.lines().filter(move |line| line.starts_with(letter)).map(|line| &line[1..]);
    let c: i64 = sheet.lines().next().and_then(|line| line.strip_prefix("C ")).expect("C").parse().unwrap();
    let remainders: Vec<&str> = lines('R').flat_map(|line| line.trim().split(' ')).collect();
    let generation: String = lines('D').map(|line| format!("G{line}\n")).collect();
    let demand: String = lines('G').map(|line| format!("D{line}\n")).collect();
    format!("C {}\n{generation}{demand}R {} {}\n", -c, remainders[1], remainders[0])
}

/// A sheet without its `L` lines: which nodes have TEC is another in the mirror.
fn without_local_lines(sheet: &str) -> String {
    sheet.lines().filter(|line| !line.starts_with('L')).map(|line| format!("{line}\n")).collect()
}

#[test]
fn listed_cases_and_their_mirrors() {
    let list = cases();
    let mut mirrors = 0;
    for case in &list {
        if let Some(label) = case.label.strip_suffix(", in the mirror") {
            let mirror = without_local_lines(&sheet_of(&list, &case.label));
            assert_eq!(mirror, turned_round(&sheet_of(&list, label)), "{label}");
            mirrors += 1;
        }
    }
    assert_eq!(mirrors, 6);
}

#[test]
fn every_case_of_two_ways_and_its_mirror() {
    let kilowatts = [([30, 10], [10, 30]), ([30, 10], [20, 20]), ([35, 15], [20, 30]), ([70, 0], [10, 60])];
    for metres in 1..=6 {
        for (tec, demand) in kilowatts {
            let [tec, demand] = [tec, demand].map(|kw| kw.map(|thousands| 1_000 * thousands));
            for (reference, p) in [(1, 0), (1, 500), (2, 250), (2, 500), (2, 1_000), (3, 1), (3, 500)] {
                let mut case = both_ways(metres, tec, demand);
                (case.settings.reference, case.settings.p) = (reference, p);
                // An odd number of metres has a tariff of a half.
                (case.settings.constant, case.settings.wider_factor) = (50, 1_000);
                mirror_agrees(&solved(&case).0);
            }
        }
    }
}

/// A case's mirror prints its sheet turned round.
fn mirror_agrees(case: &Case) {
    let sheet = accepted(case, |_| ());
    let mirror = accepted(&mirrored(case), |_| ());
    assert_eq!(without_local_lines(&mirror), turned_round(&sheet), "{sheet}");
}

#[test]
fn the_balanced_case_is_its_own_mirror() {
    for metres in 1..=9 {
        let sheet = accepted(&balanced(metres), |_| ());
        assert!(sheet.starts_with("C 0\n"), "{sheet}");
        let figures = |line: &str| {
            let prefix = format!("{line} ");
            sheet.lines().find_map(|found| found.strip_prefix(&prefix)).expect("a line").to_string()
        };
        assert_eq!(figures("G 1"), figures("D 2"), "{sheet}");
        assert_eq!(figures("G 2"), figures("D 1"), "{sheet}");
    }
}

#[test]
fn kiln_does_not_change() {
    let sheet = "\
C -20289
G 1 28333 8044 144792 21874 166666
D 1 -4200 16089 289602 43731 333333
L NODA 0 0
L NODB 0 0
R 200000 50000";
    assert_eq!(printed(&kiln()), sheet);
}
