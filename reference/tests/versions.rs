//! 02, CR 3, "Subsea and HVDC circuits": factors of circuits, 320 and 525, both versions of the file, one sheet in either.

mod common;

use common::*;
use reference::file::{whole_case, Case, CircuitRow, Trailer, Version};
use reference::random::{random_of_version_2, spoiled};
use reference::replay::{cases, Told};
use reference::tables::sound_tables;
use reference::{judge_case, program_output, Refusal};

/// KILN in version 2 with another factor for each kind of length.
fn kiln_of_factors() -> Case {
    let mut case = named_case("KILN_2");
    case.settings.factors = [1_000, 2_000, 3_000, 4_000, 5_000, 6_000];
    case
}

/// The expanded length in mm of circuit 2 with this voltage, factor and both lengths; `None` where its row is refused.
fn expanded(voltage: u32, factor: u32, lengths: [u32; 2]) -> Option<i128> {
    let mut case = kiln_of_factors();
    let row = &mut case.circuits[1];
    (row.voltage, row.factor, row.overhead, row.cable) = (voltage, factor, lengths[0], lengths[1]);
    match sound_tables(&case) {
        Ok(tables) => Some(tables.circuits[1].expanded_length),
        Err(refusal) => {
            assert_eq!(refusal, Refusal { number: 4, system: 0, row: 2 }, "{voltage} {factor}");
            None
        }
    }
}

#[test]
fn expanded_lengths() {
    let by_voltage = [(400, 7 * 1_000 + 5 * 2_000), (275, 7 * 3_000 + 5 * 4_000), (132, 7 * 5_000 + 5 * 6_000)];
    for (voltage, length) in by_voltage {
        assert_eq!(expanded(voltage, 0, [7, 5]), Some(length));
    }
    for voltage in [132, 275, 400, 320, 525] {
        for factor in [1_000, 1_001, 2_500, 29_999, 30_000] {
            let own = |metres: u32| Some(metres as i128 * factor as i128);
            assert_eq!(expanded(voltage, factor, [7, 5]), own(12), "{voltage} {factor}");
            assert_eq!(expanded(voltage, factor, [7, 0]), own(7), "{voltage} {factor}");
            assert_eq!(expanded(voltage, factor, [0, 5]), own(5), "{voltage} {factor}");
            assert_eq!(expanded(voltage, factor, [0, 0]), Some(0), "{voltage} {factor}");
        }
    }
    assert_eq!(expanded(525, 30_000, [500_000, 500_000]), Some(30_000_000_000));
}

#[test]
fn four_of_factors_and_voltages() {
    for voltage in [132, 275, 400, 320, 525] {
        for factor in [1, 2, 500, 999, 30_001, 30_002, 1 << 16, 1 << 31, u32::MAX] {
            assert_eq!(expanded(voltage, factor, [7, 5]), None, "{voltage} {factor}");
            assert_eq!(expanded(voltage, factor, [0, 0]), None, "{voltage} {factor}");
        }
    }
    for voltage in [320, 525] {
        assert_eq!(expanded(voltage, 0, [7, 5]), None);
        assert_eq!(expanded(voltage, 0, [0, 0]), None);
    }
    for voltage in [0, 1, 131, 133, 274, 276, 319, 321, 399, 401, 524, 526, 320 << 8, u32::MAX] {
        for factor in [0, 1, 1_000, 30_000, 30_001] {
            assert_eq!(expanded(voltage, factor, [7, 5]), None, "{voltage} {factor}");
        }
    }
}

#[test]
fn version_1_has_no_320_and_no_525() {
    for voltage in [320, 525] {
        refused(&kiln(), |case| case.circuits[1].voltage = voltage, (4, 0, 2));
        refused(&kiln(), |case| (case.circuits[1].voltage, case.nodes[2].demand_zone) = (voltage, 2), (3, 0, 3));
        refused(&kiln(), |case| (case.circuits[1].voltage, case.stations[0].plant) = (voltage, 0), (4, 0, 2));
    }
}

#[test]
#[should_panic(expected = "a factor in a row of version 1")]
fn version_1_has_no_place_for_a_factor() {
    let mut case = kiln();
    case.circuits[0].factor = 1_000;
    case.bytes();
}

/// The sheet of GENR at so many metres from LOAD, the reference, with 1,000 kW each: C is half of it, and tariffs 18 a metre.
fn sheet_of_metres(metres: u32) -> String {
    let (half, tariff) = (metres / 2, 9 * metres);
    let rest = format!("{half} {tariff} {} 50000000\n", 50_000_000 - tariff);
    format!("C -{half}\nG 1 {metres} {rest}D 1 0 {rest}L GENR 0 0\nR 0 0\n")
}

/// The same of local metres: local tariffs 10 a metre.
fn sheet_of_local_metres(metres: u32) -> String {
    let residual = 50_000_000 - 10 * metres as i64;
    let zones = format!("G 1 0 0 0 {residual} {residual}\nD 1 0 0 0 50000000 50000000\n");
    format!("C 0\n{zones}L GENR {metres} {}\nR 0 0\n", 10 * metres)
}

#[test]
fn a_factor_is_for_both_lengths() {
    let list = cases();
    for voltage in [132, 275, 400, 320, 525] {
        for (factor, metres) in [(1_000, 1_000), (2_500, 2_500), (30_000, 30_000)] {
            for lengths in ["1000 + 0", "0 + 1000", "700 + 300"] {
                let label = format!("{lengths} m at {voltage}, factor {factor}");
                assert_eq!(sheet_of(&list, &label), sheet_of_metres(metres), "{label}");
            }
            let label = format!("700 + 300 m at {voltage}, factor {factor}, marked");
            assert_eq!(sheet_of(&list, &label), sheet_of_local_metres(metres), "{label}");
        }
    }
    let by_voltage = [(400, 1, 7), (275, 3, 9), (132, 5, 11)];
    for (voltage, overhead, cable) in by_voltage {
        for (lengths, metres) in
            [("1000 + 0", 1_000 * overhead), ("0 + 1000", 1_000 * cable), ("700 + 300", 700 * overhead + 300 * cable)]
        {
            let label = format!("{lengths} m at {voltage}, by voltage");
            assert_eq!(sheet_of(&list, &label), sheet_of_metres(metres), "{label}");
        }
    }
}

/// Sheets of KILN with factors, worked out from the documents apart from this program.
const SHEETS: [(&str, &str); 2] = [
    // Every length twice KILN's: NODA at 64,000 m, NODB at 42,000.
    (
        "KILN with factors [2000, 2000, 2000]",
        "\
C -40578
G 1 56667 16089 289602 -122936 166666
D 1 -8400 32178 579204 -245871 333333
L NODA 0 0
L NODB 0 0
R 200000 50000
",
    ),
    // Lengths of 10,000, 40,000 and 119,000 m: 400 f = 69,000, NODA at 84,500 m, NODB at 57,250.
    (
        "KILN with factors [0, 2000, 3500]",
        "\
C -54095
G 1 75417 21322 383796 -217130 166666
D 1 -11450 42645 767610 -434277 333333
L NODA 0 0
L NODB 0 0
R 200000 50000
",
    ),
];

#[test]
fn sheets_in_full() {
    let list = cases();
    for (label, sheet) in SHEETS {
        assert_eq!(sheet_of(&list, label), sheet, "{label}");
    }
    let kiln = format!("{}\n", printed(&kiln()));
    // KILN's factors are 1,000 by voltage.
    assert_eq!(sheet_of(&list, "KILN with factors [1000, 1000, 1000]"), kiln);
    assert_eq!(sheet_of(&list, "KILN_2"), kiln);
}

#[test]
fn a_voltage_s_own_factor_changes_nothing() {
    let list = cases();
    let mut pairs = 0;
    for case in &list {
        if let Some((row, _)) = case.label.split_once(", the voltage's factor ") {
            assert_eq!(sheet_of(&list, &case.label), sheet_of(&list, &format!("{row}, by voltage")), "{row}");
            pairs += 1;
        }
    }
    assert_eq!(pairs, 6);
}

#[test]
fn a_circuit_s_own_factor_counts_for_its_row_alone() {
    let list = cases();
    let sheet = |factors: [u32; 3]| sheet_of(&list, &format!("KILN with factors {factors:?}"));
    let orders = [[0, 2_000, 3_500], [0, 3_500, 2_000], [2_000, 0, 3_500], [3_500, 0, 2_000], [2_000, 3_500, 0]];
    for (place, factors) in orders.iter().enumerate() {
        orders[..place].iter().for_each(|other| assert_ne!(sheet(*factors), sheet(*other), "{factors:?} {other:?}"));
    }
    // Voltages make no difference where every circuit has its own factor.
    let mut case = named_case("SUBSEA");
    case.circuits[3].factor = 1_170;
    case.circuits[3].overhead = 29_500;
    assert!(case.circuits.iter().all(|row| row.factor > 0));
    let sheet = accepted(&reference::solver::solved(&case).0, |_| ());
    for voltage in [132, 275, 400, 320, 525] {
        let set = |case: &mut Case| case.circuits.iter_mut().for_each(|row| row.voltage = voltage);
        assert_eq!(accepted(&reference::solver::solved(&case).0, set), sheet, "{voltage}");
    }
}

/// A case in the other version.
fn rewritten(case: &Case) -> Result<Case, String> {
    case.in_version(if case.version == Version::One { Version::Two } else { Version::One })
}

#[test]
fn every_stored_case_has_one_answer_in_either_version() {
    let (mut sheets, mut refusals, mut back) = (0, 0, 0);
    for listed in cases() {
        let Some(case) = whole_case(&listed.file) else { continue };
        let Ok(other) = rewritten(&case) else { continue };
        let file = other.bytes();
        assert_eq!(file.len() as i64 - listed.file.len() as i64, {
            let more = 4 * case.circuits.len() as i64;
            if case.version == Version::One {
                more
            } else {
                -more
            }
        });
        let answer = program_output(&listed.file);
        assert_eq!(program_output(&file), answer, "{}", listed.label);
        assert_eq!(rewritten(&other), Ok(case.clone()), "{}", listed.label);
        *(if answer.starts_with(b"C ") { &mut sheets } else { &mut refusals }) += 1;
        back += (case.version == Version::Two) as u32;
    }
    assert!(sheets > 500 && refusals > 500 && back > 50, "{sheets} {refusals} {back}");
}

#[test]
fn what_has_no_place_in_the_other_version() {
    let largest = reference::largest::largest();
    let fault = |case: &Case| rewritten(case).unwrap_err();
    assert_eq!(fault(&largest), "512 circuits: version 2 holds at most 480");
    let mut fewer = largest;
    fewer.circuits.truncate(481);
    assert_eq!(fault(&fewer), "481 circuits: version 2 holds at most 480");
    fewer.circuits.truncate(480);
    assert_eq!(rewritten(&fewer).unwrap().circuits, fewer.circuits);
    assert_eq!(fault(&named_case("SUBSEA")), "circuit 1 has the factor 3500: version 1 has no place for one");
    let mut last = named_case("KILN_2");
    last.circuits[2].factor = 7;
    assert_eq!(fault(&last), "circuit 3 has the factor 7: version 1 has no place for one");
    // The same version is always had.
    assert_eq!(last.in_version(Version::Two), Ok(last.clone()));
    assert_eq!(kiln().in_version(Version::One), Ok(kiln()));
}

/// KILN with so many circuits more, without length, from NODA to NODB, and solutions of zeros.
fn of_circuits(count: usize, version: Version) -> Case {
    let mut case = Case { version, ..kiln() };
    case.circuits.resize(count, circuit("NODA", "NODB", 1, 0));
    case.runs = std::array::from_fn(|_| vec![0; 3 + count]);
    case
}

#[test]
fn one_of_counts() {
    for (version, most) in [(Version::One, 512), (Version::Two, 480)] {
        for count in [3, 479, most] {
            refused(&of_circuits(count, version), |_| (), (9, 1, 1));
        }
        for count in [most + 1, most + 33, 1_000] {
            refused(&of_circuits(count, version), |_| (), (1, 0, 0));
        }
        // Before 2.
        refused(&of_circuits(most + 1, version), |case| case.settings.p = 1_001, (1, 0, 0));
        refused(&of_circuits(most, version), |case| case.settings.p = 1_001, (2, 0, 0));
    }
    assert_eq!(of_circuits(480, Version::Two).bytes().len() - of_circuits(480, Version::One).bytes().len(), 4 * 480);
}

#[test]
fn one_of_versions_and_rows() {
    for name in ["KILN", "KILN_2", "ALONE", "SUBSEA"] {
        let file = named_case(name).bytes();
        let own = Trailer::read(&file).unwrap().version;
        for version in [0, 1, 2, 3, 255, 256, 257, 258, 512, 1 << 24, 2 << 24, u32::MAX] {
            let mut other = file.clone();
            let place = other.len() - 8;
            other[place..place + 4].copy_from_slice(&version.to_le_bytes());
            // Without circuits a file of one version is one of the other.
            let whole = version == own || (name == "ALONE" && [1, 2].contains(&version));
            assert_eq!(printed_bytes(&other).starts_with("C "), whole, "{name} {version}");
            assert_eq!(printed_bytes(&other) == "refused 1 0 0", !whole, "{name} {version}");
        }
    }
}

#[test]
fn one_trailer_of_version_2() {
    // No byte of a trailer can be another.
    let file = named_case("KILN_2").bytes();
    for place in file.len() - 64..file.len() {
        for change in 1..=255u8 {
            let mut changed = file.clone();
            changed[place] ^= change;
            assert_eq!(printed_bytes(&changed), "refused 1 0 0", "{place} {change}");
        }
    }
    for length in 0..file.len() {
        assert_eq!(printed_bytes(&file[..length]), "refused 1 0 0", "{length}");
    }
}

#[test]
fn runs_of_version_2_are_lent() {
    let case = named_case("SUBSEA");
    let mut other = case.clone();
    other.runs = std::array::from_fn(|_| vec![i64::MIN; 8]);
    let runs = [&case.runs[0][..], &case.runs[1], &case.runs[2]];
    assert!(judge_case(&other.bytes(), runs).is_ok());
    assert_eq!(judge_case(&other.bytes(), runs), judge_case(&case.bytes(), runs));
    let not_whole = Err(Refusal { number: 1, system: 0, row: 0 });
    assert_eq!(judge_case(&case.bytes(), [runs[0], &runs[1][1..], runs[2]]), not_whole);
}

#[test]
fn cases_by_chance_of_version_2() {
    let cases: Vec<Case> = (0..200).map(|seed| random_of_version_2(seed, 12)).collect();
    let rows = || cases.iter().flat_map(|case| &case.circuits);
    assert!(cases.iter().all(|case| case.version == Version::Two));
    let met = |voltage: u32| rows().filter(|row: &&CircuitRow| row.voltage == voltage && row.factor > 0).count();
    assert!([132, 275, 400, 320, 525].into_iter().all(|voltage| met(voltage) > 50));
    assert!(rows().filter(|row| row.factor == 0).count() > 50);
    assert!(cases.iter().filter(|case| judged(case).is_ok()).count() > 80);
    for (case, seed) in cases.iter().zip(0..) {
        let spoiled = spoiled(case, seed);
        assert_eq!((spoiled.version, spoiled.counts()), (Version::Two, case.counts()));
    }
    assert!(random_of_version_2(7, 256).circuits.len() <= 480);
}

#[test]
fn stored_cases_of_both_versions_are_told() {
    let mut told = [[0; 2]; 2];
    for case in cases() {
        let version = Trailer::read(&case.file).and_then(|trailer| Version::of(trailer.version));
        let Some(version) = version.filter(|_| case.told != Told::Open) else { continue };
        told[version as usize][(case.told == Told::Sheet) as usize] += 1;
    }
    assert!(told.iter().flatten().all(|count| *count > 150), "{told:?}");
}
