//! 02, CR 5, "Peak and year round": files of edition 2, backgrounds, 14, 15 and 11, figures by hand, orders.

mod common;

use common::*;
use reference::background::Background::{Peak, Single, YearRound};
use reference::background::{Background, Running};
use reference::charges::{
    fixed_generation, generation, judge_generation, node_charged, remaining_demand, variable_tec,
};
use reference::file::{whole_case, Case, Edition, StationRow, Trailer, Version};
use reference::quantities::Kw;
use reference::replay::bases::{turned, zoned_node, EDITION_TEXTS};
use reference::solutions::counted_background;
use reference::solver::solved;
use reference::tables::{sound_tables, Circuit, Plant, INTERCONNECTOR, PLANTS};
use reference::{judge_case, judge_into, program_output, Answer, Refusal};

const ONE: (u32, u32, u32) = (1, 0, 0);
const FOURTEEN: (u32, u32, u32) = (14, 0, 0);

/// A station of some type.
fn plant(plant: u32, identifier: &str, node: &str, tec: u32) -> StationRow {
    StationRow { plant, ..station(identifier, node, tec) }
}

/// A case in edition 2 with solutions of its tables.
fn edition_2(case: &Case) -> Case {
    solved(&case.in_edition_2().expect("at most 320 circuits")).0
}

/// One node with so much demand and stations of these types and TECs: no circuits, and solutions of a zero.
fn alone(demand: u32, tec: &[(u32, u32)]) -> Case {
    let stations = tec.iter().zip(0..).map(|((of, tec), turn)| plant(*of, &format!("S{turn}"), "GENR", *tec));
    let mut case = Case { stations: stations.collect(), nodes: vec![node("GENR", demand)], ..pair(0, Vec::new()) };
    case.runs = case.zeros();
    edition_2(&case)
}

/// Kilowatts of nodes.
fn kw(numbers: &[i128]) -> Vec<Kw> {
    numbers.iter().map(|number| Kw(*number)).collect()
}

#[test]
fn the_table_of_14_15_7() {
    use Running::{Fixed, Variable};
    let year_round = [Fixed(70), Fixed(85), Fixed(100), Variable, Fixed(50), Fixed(0), Variable];
    assert_eq!(PLANTS.map(|plant| YearRound.running(plant)), year_round);
    let peak = [Fixed(0), Variable, Fixed(0), Variable, Variable, Variable, Variable];
    assert_eq!(PLANTS.map(|plant| Peak.running(plant)), peak);
    assert_eq!(PLANTS.map(|plant| Single.running(plant)), [Variable; 7]);
}

#[test]
fn who_pays() {
    let payers = |background: Background| PLANTS.map(|plant| background.charges(plant));
    assert_eq!(payers(Peak), [false, true, false, true, true, true, true]);
    assert_eq!(payers(YearRound), [true, true, false, true, true, true, true]);
    assert_eq!(payers(Single), PLANTS.map(Plant::pays));
    let tables = sound_tables(&named_case("SEVEN")).unwrap();
    assert_eq!(node_charged(&tables, Peak), kw(&[0, 40_000, 90_000, 110_000, 0]));
    assert_eq!(node_charged(&tables, YearRound), kw(&[60_000, 40_000, 90_000, 110_000, 0]));
    assert_eq!(tables.total_chargeable, Kw(300_000));
}

#[test]
fn percentages_are_of_a_node_s_tec_of_a_type() {
    let fixed = |tec: &[(u32, u32)]| {
        let mut case = alone(1, tec);
        // Enough of type 7 for sound totals; it isn't fixed anywhere.
        case.stations.push(plant(7, "MORE", "GENR", 1_000));
        let tables = sound_tables(&case).unwrap();
        [YearRound, Peak].map(|background| fixed_generation(&tables, background)[0].0)
    };
    // 70% of 5 twice are 3 and 3, 70% of 10 are 7.
    assert_eq!(fixed(&[(1, 5), (1, 5)]), [7, 0]);
    assert_eq!(fixed(&[(1, 5)]), [3, 0]);
    // 85% of 3 and 4 are 2 and 3, of 7 they are 5; 50% of 1 and 1 are 0 and 0, of 2 they are 1.
    assert_eq!(fixed(&[(2, 3), (2, 4)]), [5, 0]);
    assert_eq!(fixed(&[(5, 1), (5, 1)]), [1, 0]);
    // Types aren't added before they are rounded: 0.7, 0.85 and 0.5 are 2.05 together.
    assert_eq!(fixed(&[(1, 1), (2, 1), (5, 1)]), [0, 0]);
    assert_eq!(fixed(&[(3, 7), (6, 900), (4, 900)]), [7, 0]);
    assert_eq!(fixed(&[(1, 20_000_000), (2, 19_999_999), (5, 19_999_999)]), [14_000_000 + 16_999_999 + 9_999_999, 0]);
}

#[test]
fn variable_types_share_by_node() {
    // A has 1 kW each of types 4 and 7, B and C 1 kW of type 7, and half of it all is asked for: A's two kilowatts divide, so
    // that the one missing goes to B. By node and type A would have it twice.
    let mut case = pair(2, vec![circuit("A", "B", 1, 0), circuit("B", "C", 1, 0)]);
    case.nodes = vec![node("A", 0), node("B", 0), node("C", 2)];
    case.stations =
        vec![plant(4, "S1", "A", 1), plant(7, "S2", "A", 1), plant(7, "S3", "B", 1), plant(7, "S4", "C", 1)];
    let tables = sound_tables(&case.in_edition_2().unwrap()).unwrap();
    for background in [YearRound, Peak] {
        assert_eq!(variable_tec(&tables, background), kw(&[2, 1, 1]));
        assert_eq!(generation(&tables, background), kw(&[1, 1, 0]));
    }
}

#[test]
fn missing_kilowatts_go_to_the_first_that_have_something_over() {
    let tables = sound_tables(&named_case("TUT3_E2")).unwrap();
    // 300,000 of 540,000: 133,333.3 and 166,666.7.
    assert_eq!(generation(&tables, Peak), kw(&[0, 133_334, 0, 166_666]));
    assert_eq!(generation(&tables, YearRound), kw(&[42_000, 119_000, 0, 139_000]));
    assert_eq!(remaining_demand(&tables, YearRound), Kw(139_000));
    // Three nodes of type 7, the first of them with 1 kW that is fixed: 1 kW and 2 kW over three of 1 kW.
    let mut case = pair(3, vec![circuit("A", "B", 1, 0), circuit("B", "C", 1, 0)]);
    case.nodes = vec![node("A", 3), node("B", 0), node("C", 0)];
    case.stations = ["A", "B", "C"].map(|at| station(at, at, 1)).into();
    case.stations.push(plant(INTERCONNECTOR, "LINK", "A", 1));
    let tables = sound_tables(&case.in_edition_2().unwrap()).unwrap();
    assert_eq!(generation(&tables, YearRound), kw(&[2, 1, 0]));
    assert_eq!(generation(&tables, Peak), kw(&[1, 1, 1]));
}

#[test]
fn fourteen_on_its_edges() {
    let demand = 100;
    // Fixed generation is all of the demand: types 6 and 7 run at 0 year round. One more is above it.
    accepted(&alone(demand, &[(3, 100), (6, 100)]), |_| ());
    accepted(&alone(demand, &[(3, 100), (6, 60), (7, 40)]), |_| ());
    refused(&alone(demand, &[(3, 101), (6, 100)]), |_| (), FOURTEEN);
    refused(&alone(demand, &[(3, 101), (7, 100)]), |_| (), FOURTEEN);
    // 70% of 143 are 100.1, of 144 they are 100.8, of 145 101.5.
    accepted(&alone(demand, &[(1, 144), (6, 100)]), |_| ());
    refused(&alone(demand, &[(1, 145), (6, 100)]), |_| (), FOURTEEN);
    // Variable generation is all that remains year round. One less is too small; so is nothing.
    accepted(&alone(demand, &[(3, 60), (7, 40), (6, 60)]), |_| ());
    refused(&alone(demand, &[(3, 60), (7, 39), (6, 61)]), |_| (), FOURTEEN);
    accepted(&alone(demand, &[(3, 60), (4, 40), (6, 60)]), |_| ());
    refused(&alone(demand, &[(3, 99), (6, 100)]), |_| (), FOURTEEN);
    // Variable generation is all of the demand at peak. One less is too small; so is nothing, of type 1 or 3 alone.
    accepted(&alone(demand, &[(3, 20), (7, 80), (6, 20)]), |_| ());
    refused(&alone(demand, &[(3, 20), (7, 80), (6, 19)]), |_| (), FOURTEEN);
    refused(&alone(demand, &[(1, 144)]), |_| (), FOURTEEN);
    refused(&alone(demand, &[(3, 100), (1, 1)]), |_| (), FOURTEEN);
}

#[test]
fn fourteen_is_edition_2_s_alone() {
    let case = alone(100, &[(1, 145), (6, 100)]);
    refused(&case, |_| (), FOURTEEN);
    let one = changed(&case, |case| (case.edition, case.settings.zero) = (Edition::One, 0));
    accepted(&one, |_| ());
    assert_eq!(judge_generation(&sound_tables(&one).unwrap()), Ok(()));
    // 7 and 13 come first: TEC below demand though it is of variable types, and type 3 alone.
    refused(&alone(100, &[(7, 99)]), |_| (), (7, 0, 0));
    refused(&alone(100, &[(3, 60), (7, 39)]), |_| (), (7, 0, 0));
    refused(&alone(100, &[(3, 101)]), |_| (), (13, 0, 0));
    let (_, trouble) = solved(&case);
    assert_eq!(trouble.as_deref(), Some("refused 14 0 0"));
}

/// A circuit of so many metres, marked or not.
fn long(metres: i128, local: bool) -> Circuit {
    Circuit { first: 0, second: 1, x: 1, expanded_length: 1_000 * metres, local }
}

#[test]
fn the_background_by_both_flows() {
    let table = [
        (0, 0, Some(Peak)),
        (5_000_000_000, 5_000_000_000, Some(Peak)),
        (400_000_000, 0, Some(Peak)),
        (400_000_001, 0, None),
        (800_000_000, 0, None),
        (800_000_001, 0, Some(YearRound)),
        (1_400_000_000, 1_000_000_000, Some(Peak)),
        (1_400_000_001, 1_000_000_000, None),
        (1_800_000_000, 1_000_000_000, None),
        (1_800_000_001, 1_000_000_000, Some(YearRound)),
        (1_000_000_000, 1_400_000_001, Some(Peak)),
        (1_000_000_000, 1_800_000_000, Some(Peak)),
        (1_000_000_000, 1_800_000_001, Some(Peak)),
        (0, 100_000_000_000_000, Some(Peak)),
        (100_000_000_000_000, 0, Some(YearRound)),
    ];
    for (year_round, peak, expected) in table {
        for (first, second) in [(1, 1), (1, -1), (-1, 1), (-1, -1)] {
            let (year_round, peak) = (first * year_round, second * peak);
            let counted = |circuit| counted_background(&circuit, year_round, peak);
            assert_eq!(counted(long(1, false)), expected, "{year_round} {peak}");
            assert_eq!(counted(long(1, true)), Some(YearRound), "{year_round} {peak}");
            assert!(counted(long(0, false)).is_some(), "{year_round} {peak}");
        }
    }
    assert_eq!(counted_background(&long(1, false), i64::MIN, i64::MIN), Some(Peak));
}

/// GENR, the reference, and LOAD with all demand, joined by two circuits alike, the first with 2,000 m. GENR has type 7 and
/// LOAD type 6, so that all comes from GENR year round, and at peak the part that GENR has of both. Flows of the first
/// circuit are half of that.
fn half_of(demand: u32, at_genr: u32, at_load: u32) -> Case {
    let mut case = pair(demand, vec![circuit("GENR", "LOAD", 1, 2_000), circuit("GENR", "LOAD", 1, 0)]);
    case.stations = vec![plant(7, "GAS", "GENR", at_genr), plant(6, "OIL", "LOAD", at_load)];
    edition_2(&case)
}

/// The first circuit's year round flow so many mW greater in magnitude, and the second's smaller.
fn lead_by(more: i64) -> impl Fn(&mut Case) {
    move |case| {
        let sign = case.runs[0][2].signum();
        case.runs[0][2] += sign * more;
        case.runs[0][3] -= sign * more;
    }
}

/// The demand zone's metres at peak and year round.
fn demand_metres(sheet: &str) -> (String, String) {
    let line = sheet.lines().find(|line| line.starts_with("D 1 ")).expect("a demand zone");
    let fields: Vec<&str> = line.split(' ').collect();
    (fields[2].to_string(), fields[5].to_string())
}

#[test]
fn bands_in_the_judgement() {
    let for_peak = ("1000".to_string(), "0".to_string());
    let for_year_round = ("0".to_string(), "1000".to_string());
    for turned_round in [false, true] {
        let of = |demand, at_genr, at_load| {
            let mut case = half_of(demand, at_genr, at_load);
            if turned_round {
                turned(&mut case);
                case = solved(&case).0;
            }
            case
        };
        // 1,000,000,000 mW year round and 600,000,000 at peak.
        let four = of(2_000, 3_000, 2_000);
        assert_eq!((four.runs[0][2].abs(), four.runs[3][2].abs()), (1_000_000_000, 600_000_000));
        assert_eq!(demand_metres(&accepted(&four, |_| ())), for_peak);
        assert_eq!(demand_metres(&accepted(&four, lead_by(-1))), for_peak);
        refused(&four, lead_by(1), (15, 0, 1));
        // 1,400,000,000 and 600,000,000: in doubt, and the solver takes it for year round.
        let eight = of(2_800, 3_000, 4_000);
        assert_eq!((eight.runs[0][2].abs(), eight.runs[3][2].abs()), (1_400_000_000, 600_000_000));
        refused(&eight, |_| (), (15, 0, 1));
        refused(&eight, lead_by(-1), (15, 0, 1));
        assert_eq!(demand_metres(&accepted(&eight, lead_by(1))), for_year_round);
        // Equal flows.
        assert_eq!(demand_metres(&accepted(&of(2_000, 2_000, 0), |_| ())), for_peak);
    }
}

#[test]
fn a_peak_flow_that_is_greater_counts_however_much() {
    // LOAD has wind: 2,000 kW at peak, and 70% of it less year round.
    for (wind, year_round) in [(1_143, 600_000_000), (1_142, 600_500_000), (100, 965_000_000), (2_286, 200_000_000)] {
        let mut case = half_of(2_000, 2_000, 0);
        case.stations[1] = plant(1, "WIND", "LOAD", wind);
        let case = solved(&case).0;
        assert_eq!((case.runs[0][2], case.runs[3][2]), (year_round, 1_000_000_000));
        assert_eq!(demand_metres(&accepted(&case, |_| ())).0, "1000");
    }
}

/// GENR and LOAD joined by a circuit of x 1 without length that carries 24,000 kW year round and 12,000 kW at peak, and by
/// circuits of these x, lengths and marks, each with that much over its x. Their rows begin with 2.
fn beside_a_bulk(rows: &[(u32, u32, u32)]) -> Case {
    let demand = 24_000 + rows.iter().map(|(x, _, _)| 24_000 / x).sum::<u32>();
    let mut case = pair(demand, vec![circuit("GENR", "LOAD", 1, 0)]);
    for (x, metres, mark) in rows {
        case.circuits.push(reference::file::CircuitRow { mark: *mark, ..circuit("GENR", "LOAD", *x, *metres) });
    }
    case.stations = vec![plant(7, "GAS", "GENR", demand), plant(6, "OIL", "LOAD", demand)];
    edition_2(&case)
}

#[test]
fn fifteen_and_eleven() {
    // By x: 20 has 1,200 and 600 kW, background in doubt; 40 has 600 and 300, for peak and its direction in doubt there; 60 has
    // 400 and 200, for peak and idle; 80 has 300 and 150; 10 has 2,400 and 1,200, for year round.
    refused(&beside_a_bulk(&[(20, 5, 0)]), |_| (), (15, 0, 2));
    refused(&beside_a_bulk(&[(40, 5, 0)]), |_| (), (11, 4, 2));
    refused(&beside_a_bulk(&[(80, 5, 1)]), |_| (), (11, 1, 2));
    for accepted_rows in
        [[(20, 0, 0)], [(20, 5, 1)], [(40, 5, 1)], [(60, 5, 0)], [(10, 5, 0)], [(80, 5, 0)], [(40, 0, 0)]]
    {
        accepted(&beside_a_bulk(&accepted_rows), |_| ());
    }
    // All of 15 before any 11, the lowest row of each, whatever the system.
    refused(&beside_a_bulk(&[(40, 5, 0), (80, 5, 1), (20, 5, 0)]), |_| (), (15, 0, 4));
    refused(&beside_a_bulk(&[(10, 5, 0), (20, 5, 0), (20, 5, 0)]), |_| (), (15, 0, 3));
    refused(&beside_a_bulk(&[(80, 5, 1), (40, 5, 0)]), |_| (), (11, 1, 2));
    refused(&beside_a_bulk(&[(40, 5, 0), (80, 5, 1)]), |_| (), (11, 4, 2));
    refused(&beside_a_bulk(&[(10, 5, 0), (60, 5, 0), (80, 5, 1), (40, 5, 0)]), |_| (), (11, 1, 4));
}

#[test]
fn a_circuit_idle_at_peak_stands_nowhere() {
    // 400 kW year round, which is in doubt there and isn't asked: it counts for peak, where 200 kW are idle.
    let case = beside_a_bulk(&[(60, 5_000, 0)]);
    assert_eq!((case.runs[0][3], case.runs[3][3]), (400_000_000, 200_000_000));
    assert!([1, 2, 4].iter().all(|place| case.runs[*place].iter().all(|number| *number == 0)));
    assert_eq!(demand_metres(&accepted(&case, |_| ())), ("0".to_string(), "0".to_string()));
}

#[test]
fn marked_circuits_go_by_year_round() {
    // Peak turns the circuit round: LOAD has all that runs at peak alone. Its mark keeps it with year round.
    let mut case = pair(1_000, vec![circuit("GENR", "LOAD", 1, 3_000)]);
    case.circuits[0].mark = 1;
    case.nodes[0].demand = 2_000;
    case.stations = vec![plant(4, "DAM", "GENR", 3_000), plant(6, "OIL", "LOAD", 27_000)];
    let case = edition_2(&case);
    // Year round GENR sends 1,000 kW; at peak it has 300 of 3,000 and takes 1,700.
    assert_eq!((case.runs[0][2], case.runs[3][2]), (1_000_000_000, -1_700_000_000));
    let sheet = accepted(&case, |_| ());
    assert!(sheet.contains("\nL GENR 0 0\nL LOAD -3000 -30000\n"), "{sheet}");
    // Without the mark it counts for peak and runs the other way.
    let sheet = accepted(&solved(&changed(&case, |case| case.circuits[0].mark = 0)).0, |_| ());
    assert!(sheet.contains("\nL LOAD 0 0\n"), "{sheet}");
    let (peak, year_round) = demand_metres(&sheet);
    // LOAD stands 3,000 m above GENR; a third of the demand is there.
    assert_eq!((peak.as_str(), year_round.as_str()), ("-1000", "0"));
}

/// A case with a change.
fn changed(case: &Case, change: impl Fn(&mut Case)) -> Case {
    let mut changed = case.clone();
    change(&mut changed);
    changed
}

#[test]
fn c_of_each_background() {
    // SEVEN's sums of metres times kW: at peak -640,020,000 of demand and 1,771,360,000 of 240,000 kW of generation, year round
    // -960,000,000 and 6,528,150,000 of 300,000 kW.
    let seven = named_case("SEVEN");
    let first_line = |p: u32| accepted(&seven, |case| case.settings.p = p).lines().next().unwrap().to_string();
    assert_eq!(first_line(500), "C -5741 -15600");
    assert_eq!(first_line(0), "C -3556 -5333");
    assert_eq!(first_line(1_000), "C -7381 -21761");
}

#[test]
fn demand_pays_both_tariffs_and_a_total_adds_both() {
    for (name, _) in EDITION_TEXTS {
        let sheet = printed(&named_case(name));
        for line in sheet.lines().filter(|line| line.starts_with(['G', 'D']) && !line.ends_with('-')) {
            let fields: Vec<i64> = line.split(' ').skip(2).map(|field| field.parse().unwrap()).collect();
            let [_, _, peak, _, _, year_round, residual, total] = fields[..] else { panic!("{line}") };
            assert_eq!(total, peak + year_round + residual, "{line}");
        }
    }
}

#[test]
fn a_case_of_one_node() {
    // Type 1 100, type 7 100, 100 kW, 1,000 pounds shared by halves: 500,000,000 over 200 and over 100 kW.
    let sheet = accepted(&alone(100, &[(1, 100), (7, 100)]), |case| case.settings.revenue = 1_000);
    let lines = "C 0 0\nG 1 0 0 0 0 0 0 2500000 2500000\nD 1 0 0 0 0 0 0 5000000 5000000\nL GENR 0 0\nR 0 0";
    assert_eq!(sheet, lines);
}

/// Two nodes joined by one circuit, and a third behind one without length, with rows that a length puts in doubt: row 2 about
/// its background, rows 3 and 5 about their direction. Row 4 is the third node's.
fn with_a_spur() -> Case {
    let mut case = beside_a_bulk(&[(20, 0, 0), (40, 0, 0), (80, 0, 1)]);
    case.nodes.push(zoned_node("SPUR", 1, 1, 0));
    case.circuits.insert(3, circuit("LOAD", "SPUR", 1, 0));
    case.circuits[0].overhead = 700;
    solved(&case).0
}

#[test]
fn order_of_all_numbers() {
    type Fault = (fn(&mut Case), (u32, u32, u32));
    const FAULTS: [Fault; 27] = [
        (|case| case.settings.zero = 1, (1, 0, 0)),
        (|case| case.settings.p = 1_001, (2, 0, 0)),
        (|case| case.nodes[1].generation_zone = 0, (3, 0, 2)),
        (|case| case.circuits[0].voltage = 1, (4, 0, 1)),
        (|case| case.stations[1].plant = 8, (5, 0, 2)),
        (|case| case.circuits[3].second = name("GENR"), (6, 0, 3)),
        (|case| case.stations.iter_mut().for_each(|row| row.tec = 0), (7, 0, 0)),
        (|case| case.stations.iter_mut().for_each(|row| row.plant = INTERCONNECTOR), (13, 0, 0)),
        (|case| case.stations[0].plant = 1, (14, 0, 0)),
        (|case| case.runs[0][1] = i64::MIN, (8, 1, 2)),
        (|case| case.runs[0][3] += 1, (9, 1, 1)),
        (|case| case.runs[0][1] += 60_000_000, (10, 1, 0)),
        (|case| case.runs[3][7] = i64::MAX, (8, 4, 8)),
        (|case| case.runs[3][4] += 1, (9, 4, 1)),
        (|case| case.runs[3][2] += 100_000_001, (10, 4, 0)),
        (|case| case.circuits[1].overhead = 1, (15, 0, 2)),
        (|case| case.circuits[2].overhead = 1, (11, 4, 3)),
        (|case| case.circuits[4].overhead = 1, (11, 1, 5)),
        (|case| case.runs[1][0] = 1, (8, 2, 1)),
        (|case| case.runs[1][6] += 1, (9, 2, 2)),
        (|case| case.runs[1][2] += 100_000_001, (10, 2, 0)),
        (|case| case.runs[4][3] = i64::MIN, (8, 5, 4)),
        (|case| case.runs[4][4] += 1, (9, 5, 1)),
        (|case| case.runs[4][2] -= 100_000_001, (10, 5, 0)),
        (|case| case.runs[2][2] = i64::MAX, (8, 3, 3)),
        (|case| case.runs[2][6] -= 1, (9, 3, 2)),
        (|case| case.runs[2][2] += 100_000_001, (10, 3, 0)),
    ];
    let sound = with_a_spur();
    accepted(&sound, |_| ());
    for first in 0..FAULTS.len() {
        let from_here_on = |case: &mut Case| FAULTS[first..].iter().rev().for_each(|(fault, _)| fault(case));
        refused(&sound, from_here_on, FAULTS[first].1);
        for second in first..FAULTS.len() {
            let both = |case: &mut Case| {
                FAULTS[second].0(case);
                FAULTS[first].0(case);
            };
            refused(&sound, both, FAULTS[first].1);
        }
    }
}

#[test]
fn the_solutions_in_the_file_and_those_lent() {
    let case = named_case("SEVEN");
    let (file, runs) = (case.bytes(), case.lent());
    let sheet = judge_case(&file, runs).unwrap();
    let one = Err(Refusal { number: 1, system: 0, row: 0 });
    assert_eq!(judge_case(&file, [runs[0], runs[1], runs[2]]), one);
    for place in 0..5 {
        for wrong in [&runs[place][1..], &[runs[place], &[0]].concat()[..], &[]] {
            let mut lent = runs;
            lent[place] = wrong;
            assert_eq!(judge_case(&file, lent), one, "{place}");
        }
    }
    // The numbers in the file aren't looked at.
    let other = changed(&case, |case| case.own_runs_mut().iter_mut().for_each(|run| run.fill(i64::MIN)));
    assert_eq!(judge_case(&other.bytes(), runs), Ok(sheet.clone()));
    refused(&other, |_| (), (8, 1, 1));
    let mut buffer = vec![7; sheet.len() + 1];
    assert_eq!(judge_into(&file, runs, &mut buffer), Answer::Accepted(sheet.len()));
    assert_eq!(buffer, [&sheet[..], &[7]].concat());
    let twelve = Answer::Refused(Refusal { number: 12, system: 0, row: 0 });
    assert_eq!(judge_into(&file, runs, &mut buffer[..sheet.len() - 1]), twelve);
}

#[test]
fn edition_1_has_no_peak_runs() {
    let case = kiln();
    let [base, wider, local, ..] = case.lent();
    let none: &[i64] = &[];
    assert_eq!(
        judge_case(&case.bytes(), [base, wider, local, none, none]),
        judge_case(&case.bytes(), [base, wider, local])
    );
    assert!(judge_case(&case.bytes(), case.lent()).is_ok());
    let one = Err(Refusal { number: 1, system: 0, row: 0 });
    for lent in [[base, wider, local, base, none], [base, wider, local, none, wider], [base, wider, local, &[0], &[0]]]
    {
        assert_eq!(judge_case(&case.bytes(), lent), one);
    }
    // Before 2.
    let bad = changed(&case, |case| case.settings.p = 1_001).bytes();
    assert_eq!(judge_case(&bad, [base, wider, local, none, &[0]]), one);
}

#[test]
fn one_of_editions_and_versions() {
    let seven = named_case("SEVEN");
    for zero in [0, 1, 3, 4, 258, 2 << 8, 2 << 24, (1 << 31) + 2, u32::MAX] {
        refused(&seven, |case| case.settings.zero = zero, ONE);
    }
    // Edition 2 over the sections and the trailer of edition 1, in both versions.
    for name in ["KILN", "KILN_2", "SUBSEA", "ALONE"] {
        refused(&named_case(name), |case| case.settings.zero = 2, ONE);
    }
    let unfactored = changed(&seven, |case| case.circuits[0].factor = 0);
    refused(&unfactored, |case| case.version = Version::One, ONE);
    // The same without circuits: nothing but the version's number differs.
    let alone = alone(100, &[(7, 100)]);
    accepted(&alone, |_| ());
    refused(&alone, |case| case.version = Version::One, ONE);
    refused(&alone, |case| case.edition = Edition::One, ONE);
    assert_eq!(
        seven.in_version(Version::One).unwrap_err(),
        "a case of edition 2: version 1 has no place for its solutions"
    );
    assert_eq!(seven.in_version(Version::Two), Ok(seven.clone()));
}

#[test]
fn one_of_counts() {
    let of_circuits = |count: usize| {
        let mut case = beside_a_bulk(&[]);
        case.circuits.resize(count, circuit("GENR", "LOAD", 1, 0));
        case.runs = case.zeros();
        case
    };
    for count in [1, 319, 320] {
        refused(&of_circuits(count), |_| (), (9, 1, 1));
        accepted(&solved(&of_circuits(count)).0, |_| ());
    }
    for count in [321, 480, 481, 512] {
        refused(&of_circuits(count), |_| (), ONE);
    }
    refused(&of_circuits(321), |case| case.settings.p = 1_001, ONE);
    assert_eq!(of_circuits(321).in_version(Version::Two).unwrap_err(), "321 circuits: version 2 holds at most 320");
    for place in 0..5 {
        refused(&named_case("SEVEN"), |case| case.runs[place].push(0), ONE);
        refused(&named_case("SEVEN"), |case| case.runs[place].clear(), ONE);
    }
}

#[test]
fn every_field_of_the_trailer_and_every_length_counts() {
    let file = named_case("SEVEN").bytes();
    assert_eq!((file.len(), file[file.len() - 80..].chunks(8).count()), (1_128, 10));
    for place in file.len() - 80..file.len() {
        for bit in 0..8 {
            let mut other = file.clone();
            other[place] ^= 1 << bit;
            assert_eq!(program_output(&other), b"refused 1 0 0\n", "{place} {bit}");
        }
    }
    for length in 0..file.len() {
        assert_eq!(program_output(&file[..length]), b"refused 1 0 0\n", "{length}");
    }
    assert_eq!(program_output(&[&file[..], &[0]].concat()), b"refused 1 0 0\n");
    let trailer = Trailer::read(&file).unwrap();
    assert_eq!(trailer.counts, [1, 5, 5, 7, 10, 10, 10, 10, 10]);
    assert_eq!(trailer.offsets, [0, 64, 184, 424, 648, 728, 808, 888, 968]);
    assert_eq!((trailer.version, trailer.length), (2, 1_128));
}

#[test]
fn cases_of_the_greatest_counts() {
    for case in [reference::largest::largest_of_edition_2(), reference::longest::longest_of_edition_2()] {
        assert_eq!((case.nodes.len(), case.circuits.len(), case.stations.len()), (256, 320, 512));
        assert_eq!(case.bytes().len(), 61_072);
        assert_eq!(whole_case(&case.bytes()), Some(case.clone()));
        assert!(judged(&case).is_ok(), "{}", printed(&case));
    }
    assert_eq!(program_output(&reference::longest::longest_of_edition_2().bytes()).len(), 15_145);
}
