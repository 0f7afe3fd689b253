//! Edition 2 by calls of the real library: its sheets, five solutions, and the refusals that it adds.

mod files;

use files::{in_version_2, put_u32, u32_at, KILN};
use wirepulley::{Answer, Case, Refusal, Solutions, System};

/// Example 3 of the tutorial, in edition 2.
const TUTORIAL: &[u8] = include_bytes!("../../../cases/TUT3_E2.case");
const TUTORIAL_SHEET: &[u8] = include_bytes!("../../../cases/TUT3_E2.sheet");

/// KILN in edition 2: peak has all of its figures, and year round none, so the prices are the same.
const KILN_SHEET: &str =
    "C -20289 0\nG 1 28333 8044 144792 0 0 0 21874 166666\nD 1 -4200 16089 289602 0 0 0 43731 333333\n\
                          L NODA 0 0\nL NODB 0 0\nR 200000 50000\n";

/// The runs by their systems' numbers, 1 first.
fn systems(solutions: Solutions) -> [Vec<i64>; 5] {
    let Solutions { base, wider, local, peak_base, peak_wider } = solutions;
    [base, wider, local, peak_base, peak_wider]
}

/// A file of version 2 in edition 2: the edition in the settings, and a trailer of 80 bytes behind five solutions.
fn in_edition_2(file: &[u8], solutions: &Solutions) -> Vec<u8> {
    let trailer = &file[file.len() - 64..];
    let mut made = file[..u32_at(trailer, 8 * 4) as usize].to_vec();
    let mut entries = trailer[..8 * 4].to_vec();
    put_u32(&mut made, 52, 2);
    for solution in systems(solutions.clone()) {
        entries.extend([made.len() as u32, solution.len() as u32].map(u32::to_le_bytes).concat());
        made.extend(solution.iter().flat_map(|number| number.to_le_bytes()));
    }
    entries.extend([2, made.len() as u32 + 80].map(u32::to_le_bytes).concat());
    [made, entries].concat()
}

/// KILN in edition 2, and its solutions. Type 7 is variable in both backgrounds, so both have KILN's base flows. None is greater year
/// round, so every circuit counts for peak: KILN's wider solution is peak's, and that of year round is 0, as the local one is.
fn kiln() -> (Vec<u8>, Solutions) {
    let Solutions { base, wider, local, .. } = Solutions::of_file(KILN);
    let solutions = Solutions::of_edition_2([base.clone(), local.clone(), local, base, wider]);
    (in_edition_2(&in_version_2(KILN), &solutions), solutions)
}

/// Gives the stations at NODA and NODB a plant type and kilowatts each: their rows of 32 bytes stand from 280 on in version 2.
fn set_stations(file: &mut [u8], stations: [(u32, u32); 2]) {
    for (row, (plant, kw)) in stations.into_iter().enumerate() {
        put_u32(file, 280 + 32 * row + 24, plant);
        put_u32(file, 280 + 32 * row + 28, kw);
    }
}

/// Marks circuit 1, A to B: its row stands at 136.
fn mark_first(file: &mut [u8]) {
    put_u32(file, 136 + 40, 1);
}

/// The base solution of KILN's network where so many of its 150,000 kW, a multiple of 4, are generated at NODA and the rest at NODB.
/// KILN has 100,000 at NODA. x is 100, 100 and 200, so a kilowatt more there and one less at NODB puts a quarter on A to C.
fn base_with(at_noda: i64) -> Vec<i64> {
    let a_c = at_noda / 4 + 30_000;
    let b_c = 120_000 - a_c;
    [200 * a_c, 100 * b_c, 0, at_noda - a_c, b_c, a_c].map(|kw| 1_000_000 * kw).to_vec()
}

/// What KILN's solutions in edition 2 are answered with for other stations.
fn judged(stations: [(u32, u32); 2]) -> Result<usize, Refusal> {
    let (mut file, solutions) = kiln();
    set_stations(&mut file, stations);
    solutions.with(&file).judge()
}

#[test]
fn the_tutorial_is_accepted() {
    let solutions = Solutions::of_file(TUTORIAL);
    let case = solutions.with(TUTORIAL);
    let mut sheet = [7; 600];
    let (front, behind) = (TUTORIAL_SHEET.len(), 600 - TUTORIAL_SHEET.len());
    assert_eq!(case.write(&mut sheet), Ok(front));
    assert_eq!(&sheet[..front], TUTORIAL_SHEET);
    assert_eq!(&sheet[front..], &[7; 600][..behind]);
    assert_eq!(case.judge(), Ok(front));
    assert_eq!(case.answer(&mut sheet), Answer { number: 0, system: 0, row: 0, length: front as u64 });
    assert_eq!(case.judgement(), case.answer(&mut sheet));
}

#[test]
fn five_solutions_stand_in_its_file() {
    let solutions = Solutions::of_file(TUTORIAL);
    assert_eq!(solutions.base[4..], [5_750_000_000, 36_250_000_000, 24_750_000_000, 139_000_000_000]);
    assert_eq!(solutions.peak_base[4..], [-8_333_500_000, 8_333_500_000, 25_000_500_000, 166_666_000_000]);
    let metres = |solution: &[i64]| -> Vec<i64> { solution[..4].iter().map(|nm| nm / 1_000_000_000).collect() };
    assert_eq!(metres(&solutions.wider), [0, -5_000, -7_500, -7_500]);
    assert_eq!(metres(&solutions.local), [0, 0, 0, 30_000]);
    assert_eq!(metres(&solutions.peak_wider), [0, 15_000, 2_500, 2_500]);
}

#[test]
fn solutions_are_put_together_by_edition() {
    let of_tutorial = Solutions::of_file(TUTORIAL);
    assert_eq!(Solutions::of_edition_2(systems(of_tutorial.clone())), of_tutorial);
    let of_kiln = Solutions::of_file(KILN);
    let [base, wider, local, peak_base, peak_wider] = systems(of_kiln.clone());
    assert!(peak_base.is_empty() && peak_wider.is_empty());
    assert_eq!(Solutions::of_edition_1([base, wider, local]), of_kiln);
    let [base, wider, local, ..] = systems(of_tutorial);
    assert_eq!(Solutions::of_edition_1([base, wider, local]).with(TUTORIAL).judge(), Err(Refusal::File));
}

#[test]
fn kiln_has_its_prices_in_either_edition() {
    let (file, solutions) = kiln();
    assert_eq!(file.len(), 540 + 3 * 4 + 2 * 8 * 6 + 16);
    assert_eq!(Solutions::of_file(&file), solutions);
    let mut exact = vec![7; KILN_SHEET.len()];
    assert_eq!(solutions.with(&file).write(&mut exact), Ok(KILN_SHEET.len()));
    assert_eq!(exact, KILN_SHEET.as_bytes());
    assert_eq!(solutions.with(&file).judge(), Ok(KILN_SHEET.len()));
    for length in [0, 1, KILN_SHEET.len() - 1] {
        let mut short = vec![7; length];
        assert_eq!(solutions.with(&file).write(&mut short), Err(Refusal::Buffer));
        assert!(short.iter().all(|byte| *byte == 7));
    }
}

#[test]
fn every_solution_has_its_length() {
    let (file, solutions) = kiln();
    for system in 0..5 {
        for length in [0, 1, 5, 7] {
            let mut runs = systems(solutions.clone());
            runs[system].resize(length, 0);
            assert_eq!(Solutions::of_edition_2(runs).with(&file).judge(), Err(Refusal::File), "{system} {length}");
        }
    }
    let of_kiln = Solutions::of_file(KILN);
    let case = of_kiln.with(KILN);
    assert!(case.judge().is_ok());
    for run in [&[0][..], &solutions.peak_base] {
        assert_eq!(Case { peak_base: run, ..case }.judge(), Err(Refusal::File));
        assert_eq!(Case { peak_wider: run, ..case }.judge(), Err(Refusal::File));
        assert_eq!(Case { peak_base: run, peak_wider: run, ..case }.judge(), Err(Refusal::File));
    }
}

#[test]
fn other_editions_are_refused() {
    let (mut file, solutions) = kiln();
    for edition in [0, 1, 3, 256 + 2, u32::MAX] {
        put_u32(&mut file, 52, edition);
        assert_eq!(solutions.with(&file).judge(), Err(Refusal::File));
        assert_eq!(Solutions::of_file(&file).with(&file).judge(), Err(Refusal::File));
    }
    put_u32(&mut file, 52, 2);
    let version = file.len() - 8;
    put_u32(&mut file, version, 1);
    assert_eq!(solutions.with(&file).judge(), Err(Refusal::File));
}

#[test]
fn a_damaged_file_is_refused() {
    let (file, _) = kiln();
    for length in 0..file.len() {
        assert_eq!(Solutions::of_file(&file[..length]).with(&file[..length]).judge(), Err(Refusal::File));
    }
    let mut named = KILN.to_vec();
    put_u32(&mut named, 52, 2);
    assert_eq!(Solutions::of_file(&named).with(&named).judge(), Err(Refusal::File));
}

#[test]
fn generation_has_to_scale_in_both_backgrounds() {
    // demand is 150,000 kW. Year round: 85 % of type 2 is above it; type 6 does not run, and 100,000 kW are below it
    assert_eq!(judged([(2, 200_000), (7, 100_000)]), Err(Refusal::Unscalable));
    assert_eq!(judged([(6, 200_000), (7, 100_000)]), Err(Refusal::Unscalable));
    // at peak type 1 does not run
    assert_eq!(judged([(1, 200_000), (7, 100_000)]), Err(Refusal::Unscalable));
    // equal is enough, and 13 comes first
    assert_eq!(judged([(6, 200_000), (7, 150_000)]), Err(Refusal::Balance { system: System::Base, row: 1 }));
    assert_eq!(judged([(3, 200_000), (3, 100_000)]), Err(Refusal::ChargeableTec));
}

#[test]
fn a_background_may_be_in_doubt() {
    // at peak both run at 150/160, so NODA at 142,500 kW; year round NODB at 85 %, 6,800, and NODA at 143,200: 525 more on A to B
    let (mut file, mut solutions) = kiln();
    set_stations(&mut file, [(7, 152_000), (2, 8_000)]);
    (solutions.base, solutions.peak_base) = (base_with(143_200), base_with(142_500));
    let mut sheet = [7; 200];
    assert_eq!(solutions.with(&file).write(&mut sheet), Err(Refusal::BackgroundInDoubt { circuit: 1 }));
    assert_eq!(solutions.with(&file).answer(&mut sheet), Answer { number: 15, system: 0, row: 1, length: 0 });
    assert_eq!(sheet, [7; 200]);
    // year round if marked: peak's wider solution has a length too many then
    mark_first(&mut file);
    assert_eq!(solutions.with(&file).judge(), Err(Refusal::Misses { system: System::PeakWider }));
}

#[test]
fn a_direction_in_doubt_tells_its_background() {
    // half of NODA's 80,800 kW run in both backgrounds: 300 on A to B, which counts for peak
    let (mut file, mut solutions) = kiln();
    set_stations(&mut file, [(7, 80_800), (7, 219_200)]);
    (solutions.base, solutions.peak_base) = (base_with(40_400), base_with(40_400));
    let at_peak = Refusal::Direction { system: System::PeakBase, row: 1 };
    assert_eq!(solutions.with(&file).judge(), Err(at_peak));
    assert_eq!(at_peak.to_string(), "refused (11): peak base solution: the direction of circuit 1 is in doubt");
    mark_first(&mut file);
    let year_round = Refusal::Direction { system: System::Base, row: 1 };
    assert_eq!(solutions.with(&file).judge(), Err(year_round));
    let mut of_edition_1 = in_version_2(KILN);
    set_stations(&mut of_edition_1, [(7, 80_800), (7, 219_200)]);
    let Solutions { base, wider, local, .. } = solutions;
    assert_eq!(Solutions::of_edition_1([base, wider, local]).with(&of_edition_1).judge(), Err(year_round));
}

#[test]
fn systems_are_judged_in_their_order() {
    let (file, solutions) = kiln();
    let mut runs = systems(solutions.clone()).map(|run| [&[i64::MAX], &run[1..]].concat());
    let order =
        [(1, System::Base), (4, System::PeakBase), (2, System::Wider), (5, System::PeakWider), (3, System::Local)];
    let judged = |runs: &[Vec<i64>; 5]| Solutions::of_edition_2(runs.clone()).with(&file).judge();
    for (number, system) in order {
        assert_eq!(judged(&runs), Err(Refusal::Number { system, row: 1 }));
        let right = &systems(solutions.clone())[number - 1];
        runs[number - 1].clone_from(right);
        runs[number - 1][3] += 1;
        assert_eq!(judged(&runs), Err(Refusal::Balance { system, row: 1 }));
        runs[number - 1].clone_from(right);
        runs[number - 1][0] += 100_000_000;
        assert_eq!(judged(&runs), Err(Refusal::Misses { system }));
        runs[number - 1].clone_from(right);
    }
    assert_eq!(judged(&runs), Ok(KILN_SHEET.len()));
}
