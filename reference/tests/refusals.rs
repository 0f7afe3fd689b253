//! 01 "What stops a case" and 02, CR 1: every number, and the order.

mod common;

use common::*;
use reference::file::{padded, Case, Name};
use reference::tables::INTERCONNECTOR;
use reference::{judge_case, judge_into, Answer, Refusal};

const NOT_WHOLE: &str = "refused 1 0 0";

#[test]
fn one_length() {
    let file = kiln().bytes();
    assert_eq!(printed_bytes(&[]), NOT_WHOLE);
    for length in 0..file.len() {
        assert_eq!(printed_bytes(&file[..length]), NOT_WHOLE, "{length}");
    }
    let longer = [&file[..], &[0]].concat();
    assert_eq!(printed_bytes(&longer), NOT_WHOLE);
    // The largest lawful file with more behind it, and with a second one behind it.
    let largest = reference::largest::largest().bytes();
    assert_eq!(largest.len(), 63_616);
    assert_eq!(printed_bytes(&[&largest[..], &[0]].concat()), NOT_WHOLE);
    assert_eq!(printed_bytes(&[&largest[..], &largest[..]].concat()), NOT_WHOLE);
}

#[test]
fn one_trailer() {
    // No byte of a trailer can be another.
    let file = kiln().bytes();
    for place in file.len() - 64..file.len() {
        for change in 1..=255u8 {
            let mut changed = file.clone();
            changed[place] ^= change;
            assert_eq!(printed_bytes(&changed), NOT_WHOLE, "{place} {change}");
        }
    }
}

#[test]
fn one_offset_of_an_empty_section() {
    let mut file = named_case("ALONE").bytes();
    let circuits = file.len() - 64 + 8 * 2;
    assert_eq!(printed_bytes(&file)[..2], *"C ");
    file[circuits] = 0;
    assert_eq!(printed_bytes(&file), NOT_WHOLE);
}

#[test]
fn one_counts() {
    let one = (1, 0, 0);
    let grown = |case: &mut Case| case.own_runs_mut().iter_mut().for_each(|run| run.push(0));
    let kiln = kiln();
    refused(&kiln, grown, one);
    refused(&kiln, |case| case.runs[2].truncate(5), one);
    refused(&kiln, |case| *case = Case { settings: case.settings.clone(), ..Case::default() }, one);
    let nodes = |count: usize| {
        move |case: &mut Case| {
            case.nodes = (0..count).map(|number| node(&format!("N{number}"), 1)).collect();
            case.runs = std::array::from_fn(|_| vec![0; count + case.circuits.len()]);
        }
    };
    refused(&kiln, nodes(257), one);
    refused(&kiln, nodes(256), (4, 0, 1));
    let circuits = |count: usize| {
        move |case: &mut Case| {
            case.circuits = vec![case.circuits[0].clone(); count];
            case.runs = std::array::from_fn(|_| vec![0; 3 + count]);
        }
    };
    refused(&kiln, circuits(513), one);
    refused(&kiln, circuits(512), (6, 0, 1));
    let stations = |count: usize| {
        move |case: &mut Case| {
            case.stations = (0..count).map(|number| station(&format!("S{number}"), "NODA", 0)).collect()
        }
    };
    refused(&kiln, stations(513), one);
    refused(&kiln, stations(512), (7, 0, 0));
}

#[test]
fn one_zero_of_the_settings() {
    refused(&kiln(), |case| case.settings.zero = 1, (1, 0, 0));
    refused(&kiln(), |case| case.settings.zero = 1 << 31, (1, 0, 0));
    // Before 2.
    refused(&kiln(), |case| (case.settings.zero, case.settings.p) = (1, 1_001), (1, 0, 0));
}

#[test]
fn one_run_lengths_before_two() {
    let mut case = kiln();
    let not_whole = Err(Refusal { number: 1, system: 0, row: 0 });
    let right = case.runs[0].clone();
    for wrong in [&right[..5], &[&right[..], &[0]].concat()[..], &[]] {
        let ways = [[wrong, &right, &right], [&right, wrong, &right], [&right, &right, wrong]];
        for runs in ways {
            assert_eq!(judge_case(&case.bytes(), runs), not_whole);
        }
    }
    case.settings.p = 1_001;
    assert_eq!(judge_case(&case.bytes(), [&right, &right, &right[..5]]), not_whole);
    assert_eq!(judge_case(&case.bytes(), [&right, &right, &right]), Err(Refusal { number: 2, system: 0, row: 0 }));
}

#[test]
fn the_runs_are_judged_and_not_the_file() {
    let case = kiln();
    let mut other = case.clone();
    other.runs = std::array::from_fn(|_| vec![i64::MIN; 6]);
    let runs = [&case.runs[0][..], &case.runs[1], &case.runs[2]];
    assert_eq!(judge_case(&other.bytes(), runs), judge_case(&case.bytes(), runs));
    assert!(judge_case(&other.bytes(), runs).is_ok());
    assert_eq!(printed(&other), "refused 8 1 1");
}

#[test]
fn two_settings() {
    type Change = fn(&mut Case, u64);
    let ranges: [(Change, u64, u64); 14] = [
        (|case, number| case.settings.generation_zones = number as u32, 1, 32),
        (|case, number| case.settings.demand_zones = number as u32, 1, 32),
        (|case, number| case.settings.p = number as u32, 0, 1_000),
        (|case, number| case.settings.constant = number as u32, 1, 10_000),
        (|case, number| case.settings.wider_factor = number as u32, 1_000, 5_000),
        (|case, number| case.settings.local_factor = number as u32, 1_000, 5_000),
        (|case, number| case.settings.factors[0] = number as u32, 1_000, 1_000),
        (|case, number| case.settings.factors[1] = number as u32, 1_000, 30_000),
        (|case, number| case.settings.factors[2] = number as u32, 1_000, 30_000),
        (|case, number| case.settings.factors[3] = number as u32, 1_000, 30_000),
        (|case, number| case.settings.factors[4] = number as u32, 1_000, 30_000),
        (|case, number| case.settings.factors[5] = number as u32, 1_000, 30_000),
        (|case, number| case.settings.reference = number as u32, 1, 3),
        (|case, number| case.settings.revenue = number, 0, 10_000_000_000),
    ];
    let kiln = kiln();
    for (place, (change, low, high)) in ranges.into_iter().enumerate() {
        for lawful in [low, high] {
            // Another reference makes the proposed potentials wrong, which is 8 and not 2.
            match place {
                12 if lawful == 1 => refused(&kiln, |case| change(case, lawful), (8, 1, 1)),
                _ => drop(accepted(&kiln, |case| change(case, lawful))),
            }
        }
        for unlawful in [low.checked_sub(1), Some(high + 1), Some(u32::MAX as u64)].into_iter().flatten() {
            if (low..=high).contains(&unlawful) {
                continue;
            }
            refused(&kiln, |case| change(case, unlawful), (2, 0, 0));
        }
    }
    refused(&kiln, |case| case.settings.revenue = u64::MAX, (2, 0, 0));
    // The low 32 bits alone would pass.
    refused(&kiln, |case| case.settings.revenue = 1 << 34, (2, 0, 0));
}

/// Names that are malformed, as twelve bytes.
fn malformed() -> Vec<Name> {
    let padded_names = [
        &b""[..],
        b" NODA",
        b"NO DA",
        b"NODa",
        b"NOD-",
        b"NOD\0",
        b"NOD\t",
        b"\xff",
        b"NOD[",
        b"NOD@",
        b"NOD/",
        b"NOD:",
        b"`",
    ];
    let mut names: Vec<Name> = padded_names.into_iter().map(padded).collect();
    names.push(*b"NODA\0\0\0\0\0\0\0\0");
    names.push(*b"NODA       A");
    names.push(*b"NODANODANOD.");
    names
}

#[test]
fn three_nodes() {
    let kiln = kiln();
    for name in malformed() {
        refused(&kiln, |case| case.nodes[1].name = name, (3, 0, 2));
    }
    for zone in [0, 2, u32::MAX] {
        refused(&kiln, |case| case.nodes[0].generation_zone = zone, (3, 0, 1));
        refused(&kiln, |case| case.nodes[2].demand_zone = zone, (3, 0, 3));
    }
    refused(&kiln, |case| case.nodes[0].demand = 20_000_001, (3, 0, 1));
    refused(&kiln, |case| case.nodes[0].demand = 20_000_000, (7, 0, 0));
    refused(&kiln, |case| case.nodes[2].name = name("NODA"), (3, 0, 3));
    refused(&kiln, |case| case.nodes[1].name = name("NODA"), (3, 0, 2));
}

#[test]
fn names_of_all_letters_and_lengths() {
    for text in ["A", "_", "0", "Z9_", "ABCDEFGHIJKL", "MNOPQRSTUVWX", "YZ0123456789", "____________"] {
        let rename = |case: &mut Case| {
            case.nodes[0].name = name(text);
            case.circuits[0].first = name(text);
            case.circuits[2].first = name(text);
            case.stations[0].node = name(text);
            case.stations[1].identifier = name(text);
        };
        assert!(accepted(&kiln(), rename).contains(&format!("\nL {text} 0 0\n")));
    }
}

#[test]
fn three_lowest_row_of_any_fault() {
    let four = |case: &mut Case| {
        case.nodes.push(node("NODD", 0));
        case.own_runs_mut().iter_mut().for_each(|run| run.push(0));
    };
    // A repeated name before a malformed row.
    let repeated_first = |case: &mut Case| {
        four(case);
        case.nodes[1].name = name("NODA");
        case.nodes[2].generation_zone = 0;
    };
    refused(&kiln(), repeated_first, (3, 0, 2));
    // A malformed row before a repeated name.
    let malformed_first = |case: &mut Case| {
        four(case);
        case.nodes[1].generation_zone = 0;
        case.nodes[2].name = name("NODA");
    };
    refused(&kiln(), malformed_first, (3, 0, 2));
    let malformed_name_first = |case: &mut Case| {
        four(case);
        case.nodes[1].name = padded(b"nodb");
        case.nodes[3].name = name("NODA");
    };
    refused(&kiln(), malformed_name_first, (3, 0, 2));
    // Two repeats: the row of the second bearer counts, and the lowest of those.
    let two_repeats = |case: &mut Case| {
        four(case);
        case.nodes[2].name = name("NODB");
        case.nodes[3].name = name("NODA");
    };
    refused(&kiln(), two_repeats, (3, 0, 3));
}

#[test]
fn four_circuits() {
    let kiln = kiln();
    for name in malformed() {
        refused(&kiln, |case| case.circuits[0].first = name, (4, 0, 1));
        refused(&kiln, |case| case.circuits[2].second = name, (4, 0, 3));
    }
    refused(&kiln, |case| case.circuits[1].first = name("NODX"), (4, 0, 2));
    refused(&kiln, |case| case.circuits[1].second = name("NODX"), (4, 0, 2));
    refused(&kiln, |case| case.circuits[1].second = name("NODB"), (4, 0, 2));
    refused(&kiln, |case| case.circuits[1].second = name("GEN_1"), (4, 0, 2));
    let equal_and_unknown = |case: &mut Case| {
        case.circuits[1].first = name("NODX");
        case.circuits[1].second = name("NODX");
    };
    refused(&kiln, equal_and_unknown, (4, 0, 2));
    for voltage in [0, 131, 133, 274, 276, 320, 399, 401, 525, 400 << 8] {
        refused(&kiln, |case| case.circuits[1].voltage = voltage, (4, 0, 2));
    }
    refused(&kiln, |case| case.circuits[1].x = 0, (4, 0, 2));
    refused(&kiln, |case| case.circuits[1].x = 10_001, (4, 0, 2));
    refused(&kiln, |case| case.circuits[1].overhead = 500_001, (4, 0, 2));
    refused(&kiln, |case| case.circuits[1].cable = 500_001, (4, 0, 2));
    refused(&kiln, |case| case.circuits[1].mark = 2, (4, 0, 2));
    // Lawful ends pass 4: they stop at system 2 or at the base's misses.
    refused(&kiln, |case| case.circuits[1].overhead = 500_000, (10, 2, 0));
    refused(&kiln, |case| case.circuits[1].cable = 500_000, (10, 2, 0));
    refused(&kiln, |case| case.circuits[1].x = 1, (10, 1, 0));
    refused(&kiln, |case| case.circuits[1].x = 10_000, (10, 1, 0));
    refused(&kiln, |case| case.circuits[1].mark = 1, (10, 2, 0));
    // Lowest row first.
    refused(&kiln, |case| (case.circuits[2].mark, case.circuits[1].x) = (2, 0), (4, 0, 2));
}

#[test]
fn five_stations() {
    let kiln = kiln();
    for name in malformed() {
        refused(&kiln, |case| case.stations[0].identifier = name, (5, 0, 1));
        refused(&kiln, |case| case.stations[1].node = name, (5, 0, 2));
    }
    refused(&kiln, |case| case.stations[1].node = name("NODX"), (5, 0, 2));
    refused(&kiln, |case| case.stations[1].node = name("GEN_1"), (5, 0, 2));
    refused(&kiln, |case| case.stations[1].identifier = name("GEN_1"), (5, 0, 2));
    for plant in [0, 8, u32::MAX] {
        refused(&kiln, |case| case.stations[1].plant = plant, (5, 0, 2));
    }
    let sheet = printed(&kiln);
    for plant in (1..=7).filter(|plant| *plant != INTERCONNECTOR) {
        assert_eq!(accepted(&kiln, |case| case.stations[1].plant = plant), sheet);
    }
    // 02, CR 1: an interconnector is lawful, and another sheet.
    assert_ne!(accepted(&kiln, |case| case.stations[1].plant = INTERCONNECTOR), sheet);
    refused(&kiln, |case| case.stations[1].tec = 20_000_001, (5, 0, 2));
    refused(&kiln, |case| case.stations[1].tec = 20_000_000, (9, 1, 1));
}

#[test]
fn five_lowest_row_of_any_fault() {
    let three = |case: &mut Case| case.stations.push(station("GEN_3", "NODA", 0));
    let repeated_first = |case: &mut Case| {
        three(case);
        case.stations[1].identifier = name("GEN_1");
        case.stations[2].plant = 0;
    };
    refused(&kiln(), repeated_first, (5, 0, 2));
    let malformed_first = |case: &mut Case| {
        three(case);
        case.stations[1].plant = 0;
        case.stations[2].identifier = name("GEN_1");
    };
    refused(&kiln(), malformed_first, (5, 0, 2));
}

#[test]
fn six_reach() {
    let kiln = kiln();
    // Only A-B is left, twice more: the reference C reaches neither, and A is the lower row.
    let cut_off = |case: &mut Case| {
        case.circuits[1] = case.circuits[0].clone();
        case.circuits[2] = case.circuits[0].clone();
    };
    refused(&kiln, cut_off, (6, 0, 1));
    let lone = |case: &mut Case| {
        case.nodes.push(node("NODD", 0));
        case.nodes.push(node("NODE", 0));
        case.own_runs_mut().iter_mut().for_each(|run| run.extend([0, 0]));
    };
    refused(&kiln, lone, (6, 0, 4));
    // Marked circuits and circuits without length reach as well.
    let thin = |case: &mut Case| {
        case.circuits.iter_mut().for_each(|row| (row.overhead, row.mark) = (0, 1));
        case.runs[1] = vec![0; 6];
    };
    accepted(&kiln, thin);
}

#[test]
fn seven_totals() {
    let kiln = kiln();
    refused(&kiln, |case| case.nodes.iter_mut().for_each(|row| row.demand = 0), (7, 0, 0));
    refused(&kiln, |case| case.stations.clear(), (7, 0, 0));
    refused(&kiln, |case| case.stations.iter_mut().for_each(|row| row.tec = 0), (7, 0, 0));
    // TEC one below demand; equal totals pass (and stop at the balance).
    refused(&kiln, |case| (case.stations[0].tec, case.stations[1].tec) = (149_998, 1), (7, 0, 0));
    refused(&kiln, |case| (case.stations[0].tec, case.stations[1].tec) = (149_999, 1), (9, 1, 1));
    let stations = |kw: &'static [u32]| {
        let rows =
            kw.iter().enumerate().map(|(place, tec)| station(&format!("S{place}"), "NODA", *tec)).collect::<Vec<_>>();
        move |case: &mut Case| case.stations = rows.clone()
    };
    const M20: u32 = 20_000_000;
    refused(&kiln, stations(&[M20, M20, M20, M20, M20]), (9, 1, 1));
    refused(&kiln, stations(&[M20, M20, M20, M20, M20, 1]), (7, 0, 0));
    // A sum of 2^32 + 50,000,000 would be lawful in 32 bits.
    let past_32_bits = |case: &mut Case| {
        let mut left = (1u64 << 32) + 50_000_000;
        case.stations.clear();
        while left > 0 {
            let tec = left.min(20_000_000);
            left -= tec;
            case.stations.push(station(&format!("S{left}"), "NODA", tec as u32));
        }
    };
    refused(&kiln, past_32_bits, (7, 0, 0));
    // Total demand of 100,000,000 and one more, TEC at its greatest.
    let demand = |more: u32| {
        let mut case = kiln.clone();
        case.nodes.extend(["D1", "D2", "D3"].map(|text| node(text, M20)));
        case.circuits.extend(["D1", "D2", "D3"].map(|text| circuit("NODA", text, 1, 0)));
        case.nodes.iter_mut().take(2).for_each(|row| row.demand = M20);
        case.nodes[2].demand = more;
        case.runs = std::array::from_fn(|_| vec![0; 12]);
        stations(&[M20, M20, M20, M20, M20])(&mut case);
        case
    };
    refused(&demand(0), |_| (), (9, 1, 1));
    refused(&demand(1), |_| (), (7, 0, 0));
}

#[test]
fn eight_ranges() {
    let kiln = kiln();
    let potential_limits = [2_000_000_000_000_000_000, 10_000_000_000_000_000, 10_000_000_000_000_000];
    for (system, limit) in potential_limits.into_iter().enumerate() {
        let number = system as u32 + 1;
        for (place, limit) in [(0, limit), (1, limit), (3, 100_000_000_000_000), (5, 100_000_000_000_000)] {
            for sign in [1, -1] {
                let out_of_range = (8, number, place as u32 + 1);
                refused(&kiln, |case| case.runs[system][place] = sign * (limit + 1), out_of_range);
                // At the limit 8 passes: a potential misses by much, a flow breaks the balance at its lower end, node 1.
                let next = if place < 3 { (10, number, 0) } else { (9, number, 1) };
                refused(&kiln, |case| case.runs[system][place] = sign * limit, next);
            }
            refused(&kiln, |case| case.runs[system][place] = i64::MIN, (8, number, place as u32 + 1));
            refused(&kiln, |case| case.runs[system][place] = i64::MAX, (8, number, place as u32 + 1));
        }
        refused(&kiln, |case| case.runs[system][2] = 1, (8, number, 3));
        refused(&kiln, |case| case.runs[system][2] = -1, (8, number, 3));
        // One walk over rows: the reference in row 3 against a number out of range before and after it.
        refused(&kiln, |case| (case.runs[system][2], case.runs[system][1]) = (1, i64::MAX), (8, number, 2));
        refused(&kiln, |case| (case.runs[system][2], case.runs[system][4]) = (1, i64::MAX), (8, number, 3));
    }
}

#[test]
fn nine_balance() {
    let kiln = kiln();
    for system in 0..3 {
        let number = system as u32 + 1;
        refused(&kiln, |case| case.runs[system][3] += 1, (9, number, 1));
        refused(&kiln, |case| case.runs[system][4] -= 1, (9, number, 2));
        refused(&kiln, |case| case.runs[system][5] += 1, (9, number, 1));
    }
    // A fault at the reference alone can't be: another node is lower here, or the sum of supplies isn't 0.
    refused(&kiln, |case| (case.nodes[1].demand, case.nodes[2].demand) = (30_001, 119_999), (9, 1, 2));
    // A flow round a loop keeps the balance: 10.
    let round = |case: &mut Case| {
        case.runs[0][3] += 1_000_000;
        case.runs[0][4] += 1_000_000;
        case.runs[0][5] -= 1_000_000;
    };
    refused(&kiln, round, (10, 1, 0));
}

#[test]
fn eleven_lowest_circuit() {
    // Three circuits side by side of 900 kW: 300 each.
    let mut case =
        pair(900, vec![circuit("GENR", "LOAD", 1, 0), circuit("GENR", "LOAD", 1, 5), circuit("GENR", "LOAD", 1, 5)]);
    let flow = 300_000_000;
    case.runs[0] = vec![0, -flow, flow, flow, flow];
    refused(&case, |_| (), (11, 1, 2));
    refused(&case, |case| case.circuits[1].overhead = 0, (11, 1, 3));
    // A marked circuit is judged too, a cable is a length too.
    refused(&case, |case| case.circuits[1].mark = 1, (11, 1, 2));
    refused(&case, |case| (case.circuits[1].overhead, case.circuits[1].cable) = (0, 1), (11, 1, 2));
    accepted(&case, |case| case.circuits.iter_mut().for_each(|row| row.overhead = 0));
}

#[test]
fn twelve_buffer() {
    let case = kiln();
    let file = case.bytes();
    let runs = [&case.runs[0][..], &case.runs[1], &case.runs[2]];
    let sheet = judge_case(&file, runs).unwrap();
    let mut buffer = vec![b'#'; sheet.len() + 10];
    assert_eq!(judge_into(&file, runs, &mut buffer), Answer::Accepted(sheet.len()));
    assert_eq!(buffer, [&sheet[..], b"##########"].concat());
    let mut exact = vec![b'#'; sheet.len()];
    assert_eq!(judge_into(&file, runs, &mut exact), Answer::Accepted(sheet.len()));
    assert_eq!(exact, sheet);
    let twelve = Answer::Refused(Refusal { number: 12, system: 0, row: 0 });
    for length in 0..sheet.len() {
        let mut short = vec![b'#'; length];
        assert_eq!(judge_into(&file, runs, &mut short), twelve);
        assert!(short.iter().all(|byte| *byte == b'#'));
    }
    // Any other fault goes before 12, and nothing is written.
    let mut wrong = case.clone();
    wrong.runs[2][5] = 1;
    let nine = Answer::Refused(Refusal { number: 9, system: 3, row: 1 });
    assert_eq!(judge_into(&file, [runs[0], runs[1], &wrong.runs[2]], &mut []), nine);
    let mut buffer = vec![b'#'; 500];
    assert_eq!(judge_into(&file, [runs[0], runs[1], &wrong.runs[2]], &mut buffer), nine);
    assert!(buffer.iter().all(|byte| *byte == b'#'));
}

#[test]
fn order_of_all_numbers() {
    type Fault = (fn(&mut Case), (u32, u32, u32));
    const FAULTS: [Fault; 17] = [
        (|case| case.settings.p = 1_001, (2, 0, 0)),
        (|case| case.nodes[1].generation_zone = 0, (3, 0, 2)),
        (|case| case.circuits[0].voltage = 1, (4, 0, 1)),
        (|case| case.stations[1].plant = 8, (5, 0, 2)),
        (|case| case.circuits[3].second = name("NODA"), (6, 0, 4)),
        (|case| case.stations[0].tec = 0, (7, 0, 0)),
        (|case| case.stations.iter_mut().for_each(|row| row.plant = INTERCONNECTOR), (13, 0, 0)),
        (|case| case.runs[0][1] = i64::MIN, (8, 1, 2)),
        (|case| case.runs[0][4] += 1, (9, 1, 1)),
        (|case| case.runs[0][0] += 60_000_000, (10, 1, 0)),
        (|case| case.circuits[3].overhead = 1, (11, 1, 4)),
        (|case| case.runs[1][3] = i64::MIN, (8, 2, 4)),
        (|case| case.runs[1][5] += 1, (9, 2, 2)),
        (|case| case.runs[1][0] += 60_000_000, (10, 2, 0)),
        (|case| case.runs[2][7] = i64::MAX, (8, 3, 8)),
        (|case| case.runs[2][4] += 1, (9, 3, 1)),
        (|case| case.runs[2][1] += 60_000_000, (10, 3, 0)),
    ];
    let sound = kiln_with_a_spur();
    accepted(&sound, |_| ());
    for first in 0..FAULTS.len() {
        // Those before others come last, so that each stands.
        let from_here_on = |case: &mut Case| FAULTS[first..].iter().rev().for_each(|(fault, _)| fault(case));
        refused(&sound, from_here_on, FAULTS[first].1);
        refused(&sound, FAULTS[first].0, FAULTS[first].1);
        // Every pair: the earlier fault answers.
        for second in first + 1..FAULTS.len() {
            let both = |case: &mut Case| {
                FAULTS[second].0(case);
                FAULTS[first].0(case);
            };
            refused(&sound, both, FAULTS[first].1);
        }
    }
}

#[test]
fn order_of_named_pairs() {
    let sound = kiln_with_a_spur();
    // 3 in the last node against 4 in the first circuit.
    refused(&sound, |case| (case.nodes[3].demand_zone, case.circuits[0].x) = (2, 0), (3, 0, 4));
    // 4 in the last circuit against 5 in the first station.
    refused(&sound, |case| (case.circuits[3].x, case.stations[0].plant) = (0, 0), (4, 0, 4));
    // 6 against 7.
    let six_and_seven = |case: &mut Case| {
        case.circuits[3].second = name("NODA");
        case.stations.clear();
    };
    refused(&sound, six_and_seven, (6, 0, 4));
    // 10 of system 1 against 11.
    refused(&sound, |case| (case.runs[0][0], case.circuits[3].overhead) = (0, 1), (10, 1, 0));
    // 11 against 8 of system 2.
    refused(&sound, |case| (case.circuits[3].overhead, case.runs[1][0]) = (1, i64::MAX), (11, 1, 4));
    // 8 in a flow against 9 at the first node, and 9 at the last node against 10.
    refused(&sound, |case| (case.runs[0][7], case.runs[0][4]) = (i64::MAX, 0), (8, 1, 8));
    refused(&sound, |case| (case.runs[1][7], case.runs[1][0]) = (1, 0), (9, 2, 3));
}
