//! 01 "Figures on the edges", and the steps' roundings; halves by 02, CR 2.

mod common;

use common::*;
use reference::charges::{demand_metres, nodal_metres, residual, scaled_generation, tariff, zones, ZoneRow};
use reference::file::Case;
use reference::quantities::{nearest, Kw, Metres, MicroPerKw};
use reference::solutions::{direction, signed_length, Direction};
use reference::tables::Circuit;

#[test]
fn metres_round_a_half_away_from_zero() {
    let edges = [
        (499_999_999, 0),
        (500_000_000, 1),
        (500_000_001, 1),
        (-499_999_999, 0),
        (-500_000_000, -1),
        (-500_000_001, -1),
        (-1_499_999_999, -1),
        (-1_500_000_000, -2),
    ];
    for (nanometres, metres) in edges {
        assert_eq!(nodal_metres(nanometres), Metres(metres), "{nanometres}");
    }
}

#[test]
fn nearest_of_small_numbers() {
    let threes: Vec<i128> = (-6..=6).map(|number| nearest(number, 3)).collect();
    assert_eq!(threes, [-2, -2, -1, -1, -1, 0, 0, 0, 1, 1, 1, 2, 2]);
    let fours: Vec<i128> = (-6..=6).map(|number| nearest(number, 4)).collect();
    assert_eq!(fours, [-2, -1, -1, -1, -1, 0, 0, 0, 1, 1, 1, 1, 2]);
}

#[test]
fn bands_of_base_flow() {
    let long = |expanded_length| Circuit { first: 0, second: 1, x: 1, expanded_length, local: false };
    let edges = [
        (0, Direction::Idle),
        (200_000_000, Direction::Idle),
        (-200_000_000, Direction::Idle),
        (200_000_001, Direction::InDoubt),
        (-200_000_001, Direction::InDoubt),
        (400_000_000, Direction::InDoubt),
        (-400_000_000, Direction::InDoubt),
        (400_000_001, Direction::FirstToSecond),
        (-400_000_001, Direction::SecondToFirst),
    ];
    for (flow, expected) in edges {
        assert_eq!(direction(&long(1), flow), expected, "{flow}");
        assert_eq!(direction(&long(0), flow), Direction::WithoutLength, "{flow}");
    }
    assert_eq!(signed_length(&long(7), -400_000_001), -7_000_000);
    assert_eq!(signed_length(&long(7), 400_000_001), 7_000_000);
    assert_eq!(signed_length(&long(7), 200_000_000), 0);
}

/// Two circuits side by side from GENR to LOAD; the first with a length carries `flow` mW, the other the rest.
fn side_by_side(flow: i64) -> Case {
    let kw = 2 * (flow.unsigned_abs() / 1_000_000) as u32;
    let mut case = pair(kw, vec![circuit("GENR", "LOAD", 1, 1_000), circuit("GENR", "LOAD", 1, 0)]);
    case.runs[0] = vec![0, -flow, flow, 1_000_000 * kw as i64 - flow];
    if flow > 400_000_000 {
        // Both circuits share a length of 1,000 m evenly: 500 m from LOAD to GENR.
        let share = 500_000_000_000;
        case.runs[1] = vec![0, -share, -share, share];
    }
    case
}

#[test]
fn bands_in_the_judgement() {
    accepted(&side_by_side(200_000_000), |_| ());
    refused(&side_by_side(200_000_001), |_| (), (11, 1, 1));
    refused(&side_by_side(400_000_000), |_| (), (11, 1, 1));
    let directed = accepted(&side_by_side(400_000_001), |_| ());
    assert!(directed.contains("\nD 1 500 "), "{directed}");
    let idle = accepted(&side_by_side(200_000_000), |_| ());
    assert!(idle.contains("\nD 1 0 "), "{idle}");
    // A negative flow: the circuit is written the other way round.
    let turn = |case: &mut Case| {
        case.circuits[0] = circuit("LOAD", "GENR", 1, 1_000);
        case.runs[0][2] = -case.runs[0][2];
        case.runs[1][2] = -case.runs[1][2];
    };
    assert_eq!(accepted(&side_by_side(400_000_001), turn), directed);
    refused(&side_by_side(400_000_000), turn, (11, 1, 1));
}

#[test]
fn missing_kilowatts_go_to_the_first() {
    let kw = |numbers: &[i128]| numbers.iter().map(|number| Kw(*number)).collect::<Vec<_>>();
    assert_eq!(scaled_generation(&kw(&[1, 1, 1]), Kw(2), Kw(3)), kw(&[1, 1, 0]));
    assert_eq!(scaled_generation(&kw(&[0, 1, 0, 1, 1]), Kw(2), Kw(3)), kw(&[0, 1, 0, 1, 0]));
    // A division without rest gets none: 2 x 2 / 4 is whole.
    assert_eq!(scaled_generation(&kw(&[2, 1, 1]), Kw(2), Kw(4)), kw(&[1, 1, 0]));
    // TUT1_P5.
    let tec = kw(&[60_000, 245_000, 0, 300_000]);
    assert_eq!(scaled_generation(&tec, Kw(300_000), Kw(605_000)), kw(&[29_753, 121_487, 0, 148_760]));
}

#[test]
fn tariffs() {
    let edges = [
        (888_210, 1_007, 1_800, 16_099_694),
        (527_590, 1_007, 1_800, 9_563_096),
        (100_000, 1_007, 1_000, 1_007_000),
        (5_000_000, 1_000, 1_200, 60_000_000),
        (8_044, 1_000, 1_800, 144_792),
        // Halves go away from zero: 50,000 / 100,000 and its negative.
        (49, 1, 1_000, 0),
        (50, 1, 1_000, 1),
        (-49, 1, 1_000, 0),
        (-50, 1, 1_000, -1),
        (-51, 1, 1_000, -1),
    ];
    for (metres, constant, factor, expected) in edges {
        assert_eq!(tariff(Metres(metres), constant, factor), MicroPerKw(expected), "{metres}");
    }
}

#[test]
fn residuals_round_down() {
    assert_eq!(residual(-1, Kw(3)), (MicroPerKw(-1), 2));
    assert_eq!(residual(-3, Kw(3)), (MicroPerKw(-1), 0));
    // Halves too: 02, CR 2 changes nothing here.
    assert_eq!(residual(-1, Kw(2)), (MicroPerKw(-1), 1));
    assert_eq!(residual(1, Kw(2)), (MicroPerKw(0), 1));
    assert_eq!(residual(-3, Kw(2)), (MicroPerKw(-2), 1));
    assert_eq!(residual(3, Kw(2)), (MicroPerKw(1), 1));
    assert_eq!(residual(8, Kw(3)), (MicroPerKw(2), 2));
    assert_eq!(residual(218_000_000_000_000, Kw(65_000_000)), (MicroPerKw(3_353_846), 10_000_000));
    assert_eq!(residual(649_000_000_000_000, Kw(50_000_000)), (MicroPerKw(12_980_000), 0));
}

#[test]
fn zone_averages_round_a_half_away_from_zero() {
    let row = |metres, kw| ZoneRow { zone: 1, metres: Metres(metres), weight: Kw(kw), chargeable: Kw(kw) };
    let average = |rows: &[ZoneRow]| zones(1, rows)[0].metres;
    assert_eq!(average(&[row(1, 5), row(0, 5)]), Some(Metres(1)));
    assert_eq!(average(&[row(-1, 5), row(0, 5)]), Some(Metres(-1)));
    assert_eq!(average(&[row(-1, 6), row(0, 5)]), Some(Metres(-1)));
    assert_eq!(average(&[row(-1, 5), row(0, 6)]), Some(Metres(0)));
    assert_eq!(average(&[row(7, 0), row(9, 0)]), None);
    // Demand: 500,000,000 nm is 1 m, and -1 m for demand; and the other way round.
    assert_eq!(demand_metres(nodal_metres(500_000_000)), Metres(-1));
    assert_eq!(demand_metres(nodal_metres(-500_000_000)), Metres(1));
}

#[test]
fn misses_of_a_hundred_million_pass() {
    // One circuit from GENR to LOAD, directed; the potential of LOAD misses by d in each system in turn.
    let mut case = pair(1_000, vec![circuit("GENR", "LOAD", 100, 1_000)]);
    case.runs[0] = vec![0, -100_000_000_000, 1_000_000_000];
    case.runs[1] = vec![0, -1_000_000_000_000, 0];
    accepted(&case, |_| ());
    for system in 0..3 {
        for miss in [100_000_000, -100_000_000] {
            accepted(&case, |case| case.runs[system][1] += miss);
            refused(&case, |case| case.runs[system][1] += miss + miss.signum(), (10, system as u32 + 1, 0));
        }
    }
    // Magnitudes are added: misses that cancel each other don't help.
    let kiln = kiln();
    for system in 0..3 {
        accepted(&kiln, |case| case.runs[system][1] += 50_000_000);
        refused(&kiln, |case| case.runs[system][1] += 50_000_001, (10, system as u32 + 1, 0));
    }
}

#[test]
fn misses_past_64_bits_are_summed() {
    // Each base miss is 4 x 10^18 here; four of them pass 2^63, and 2^64 less a little would look small.
    let mut case = pair(1_000, vec![circuit("GENR", "LOAD", 10_000, 1_000); 6]);
    case.nodes.push(node("MORE", 0));
    case.circuits.push(circuit("LOAD", "MORE", 1, 0));
    let big = 100_000_000_000_000;
    case.runs[0] =
        vec![0, -2_000_000_000_000_000_000, 2_000_000_000_000_000_000, big, -big, big, -big, 1_000_000_000, 0, 0];
    case.runs[1] = vec![0; 10];
    case.runs[2] = vec![0; 10];
    refused(&case, |_| (), (10, 1, 0));
}

#[test]
fn one_node_and_no_circuits_may_pass() {
    let sheet = accepted(&named_case("ALONE"), |_| ());
    assert_eq!(format!("{sheet}\n").into_bytes(), folder_file("ALONE.sheet"));
}

#[test]
fn demand_has_the_metres_of_generation_seen_from_the_other_end() {
    let mut case = pair(1_000, vec![circuit("GENR", "LOAD", 1, 1)]);
    case.circuits[0].voltage = 275;
    case.settings.factors[2] = 1_500;
    // From GENR, LOAD stands at -1.5 m: -2, and so 2 for demand. C is half of that.
    case.runs[0] = vec![0, -1_000_000_000, 1_000_000_000];
    case.runs[1] = vec![0, -1_500_000_000, 0];
    assert!(accepted(&case, |_| ()).starts_with("C 1\nG 1 0 1 "));
    assert!(accepted(&case, |_| ()).contains("\nD 1 2 1 "));
    // From LOAD, GENR stands at 1.5 m: 2 for generation, and C is -1.
    case.settings.reference = 2;
    case.runs[0] = vec![1_000_000_000, 0, 1_000_000_000];
    case.runs[1] = vec![1_500_000_000, 0, 0];
    assert!(accepted(&case, |_| ()).starts_with("C -1\nG 1 2 1 "));
    assert!(accepted(&case, |_| ()).contains("\nD 1 0 1 "));
}

#[test]
fn local_metres_do_not_enter_demand() {
    // TUT1 with some demand at D, behind the marked circuit: its distance is C's.
    let mut case = named_case("TUT1");
    case.nodes[3].demand = 1_000;
    let (solved, trouble) = reference::solver::solved(&case);
    assert_eq!(trouble, None);
    assert!(printed(&solved).contains("\nD 4 15000 "), "{}", printed(&solved));
}

#[test]
fn zones_without_kilowatts_and_stations_of_none() {
    let more = |case: &mut Case| {
        case.settings.generation_zones = 2;
        case.settings.demand_zones = 2;
        case.nodes[2].generation_zone = 2;
        case.stations.push(station("NONE", "NODC", 0));
    };
    let output = accepted(&kiln(), more);
    assert!(output.contains("\nG 2 -\nD 1 "), "{output}");
    assert!(output.contains("\nD 2 -\nL "), "{output}");
    assert!(!output.contains("L NODC"), "{output}");
}

#[test]
fn a_node_and_a_station_may_share_a_name() {
    let sheet = printed(&kiln());
    assert_eq!(accepted(&kiln(), |case| case.stations[1].identifier = name("NODA")), sheet);
}

#[test]
fn stations_of_a_node_are_one_sum() {
    let sheet = printed(&kiln());
    let split = |case: &mut Case| {
        case.stations[0].tec = 1;
        case.stations.push(station("GEN_3", "NODA", 199_998));
        case.stations.push(station("GEN_4", "NODA", 1));
    };
    assert_eq!(accepted(&kiln(), split), sheet);
}

#[test]
fn p_at_its_ends() {
    // KILN: demand's average is -4,200 m, generation's 28,333 m.
    assert!(accepted(&kiln(), |case| case.settings.p = 0).starts_with("C -4200\n"));
    assert!(accepted(&kiln(), |case| case.settings.p = 1_000).starts_with("C -28333\n"));
}
