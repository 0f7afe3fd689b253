//! 02, CR 6, "Sharing across boundaries": 16 and its rows, factors, parts, roundings, kilowatts, sheets by hand, orders, share files
//! by chance and as texts.

mod common;

use common::*;
use reference::charges::Zone;
use reference::file::{Case, Edition};
use reference::quantities::{Kw, Metres};
use reference::random::random_of_edition_2;
use reference::random_share::{kinds, sound, spoiled};
use reference::replay::{cases, Labelled, Told};
use reference::sharing::{
    behind, boundary_parts, judge_share, shared_kw, split, zone_parts, zone_tec, zones_with_tec, Behind, Parts, Share,
    TecByType,
};
use reference::solver::solved;
use reference::tables::{sound_tables, Tables, PLANTS};
use reference::{
    judge_case, judge_case_with_share, judge_into_with_share, program_output, program_output_with_share, Answer,
    Refusal,
};
use std::collections::BTreeMap;

/// 02, CR 6: "16, system 0".
fn sixteen(row: u32) -> Refusal {
    Refusal { number: 16, system: 0, row }
}

/// The tutorial's case, and its share file as numbers.
fn tutorial() -> (Case, Share) {
    let share = Share { next: vec![2, 4, 0, 0], load: [385, 763, 0, 424, 107, 3, 486] };
    (named_case("TUT3_E2"), share)
}

/// TEC of low carbon and carbon behind a boundary.
fn tec_behind(low_carbon: i128, carbon: i128) -> Behind {
    Behind { low_carbon: Kw(low_carbon), carbon: Kw(carbon) }
}

/// Shared and not shared metres.
fn parts(shared: i128, not_shared: i128) -> Parts {
    Parts { shared: Metres(shared), not_shared: Metres(not_shared) }
}

#[test]
fn low_carbon_is_types_1_2_and_4() {
    assert_eq!(PLANTS.map(|plant| plant.is_low_carbon()), [true, true, false, true, false, false, false]);
}

#[test]
fn factors_on_their_edges() {
    for (low_carbon, carbon, factor) in [
        (0, 1, (1, 1)),
        (50, 50, (1, 1)),
        (49, 50, (1, 1)),
        (50, 51, (1, 1)),
        (51, 50, (100, 101)),
        (51, 49, (98, 100)),
        (2, 1, (2, 3)),
        (1, 0, (0, 1)),
        (99_999_999, 1, (2, 100_000_000)),
    ] {
        assert_eq!(tec_behind(low_carbon, carbon).factor(), factor, "{low_carbon} {carbon}");
    }
}

#[test]
fn shared_parts_are_rounded_down_and_the_rest_is_not_shared() {
    for (distance, low_carbon, carbon, shared, not_shared) in [
        (100_000, 50, 50, 100_000, 0),
        (-100_000, 50, 50, -100_000, 0),
        (100_000, 51, 49, 98_000, 2_000),
        (100_000, 2, 1, 66_666, 33_334),
        (-100_000, 2, 1, -66_667, -33_333),
        (1, 2, 1, 0, 1),
        (2, 2, 1, 1, 1),
        (3, 2, 1, 2, 1),
        (-1, 2, 1, -1, 0),
        (-2, 2, 1, -2, 0),
        (-3, 2, 1, -2, -1),
        (-4, 2, 1, -3, -1),
        (7, 5, 0, 0, 7),
        (-7, 5, 0, 0, -7),
        (7, 0, 5, 7, 0),
        (-7, 0, 5, -7, 0),
        (-1, 99_999_999, 1, -1, 0),
        (20_000_000, 99_999_999, 1, 0, 20_000_000),
        (-20_000_000, 50_000_001, 49_999_999, -20_000_000, 0),
        (20_000_000, 50_000_001, 49_999_999, 19_999_999, 1),
    ] {
        let split = boundary_parts(Metres(distance), tec_behind(low_carbon, carbon));
        assert_eq!(split, parts(shared, not_shared), "{distance} {low_carbon} {carbon}");
    }
}

/// TEC of a zone: of types 1, 3 and 7.
fn tec(intermittent: i128, interconnector: i128, other: i128) -> TecByType {
    [intermittent, 0, interconnector, 0, 0, 0, other].map(Kw)
}

#[test]
fn behind_a_boundary_lie_all_whose_chain_passes_it() {
    // 1 and 2 to 4, 4 to 5, 3 to 5, which is the centre; 6 has no TEC.
    let share = Share { next: vec![4, 4, 5, 5, 0, 0], load: [0; 7] };
    let zones =
        [tec(1, 0, 0), tec(10, 20, 0), tec(0, 0, 300), tec(4_000, 0, 5_000), tec(60_000, 0, 0), TecByType::default()];
    let expected = [(1, 0), (10, 20), (0, 300), (4_011, 5_020), (64_011, 5_320)];
    for (zone, (low_carbon, carbon)) in (1..).zip(expected) {
        assert_eq!(behind(&zones, &share, zone), tec_behind(low_carbon, carbon), "{zone}");
    }
}

#[test]
fn parts_along_a_chain_and_the_centre_s_metres() {
    // 3 to 2 to 1. Behind 3 is low carbon alone; behind 2 two thirds, with the interconnector's kilowatt.
    let share = Share { next: vec![0, 1, 2], load: [0; 7] };
    let zones = [tec(0, 0, 9), tec(0, 1, 0), tec(2, 0, 0)];
    let metres = [100, 90, 95].map(|metres| Some(Metres(metres)));
    let found = [1, 2, 3].map(|zone| zone_parts(&zones, &share, &metres, zone).unwrap());
    // 2: -10 m, two thirds -6.7: -7 and -3. 3: 5 m, nothing of it.
    assert_eq!(found, [parts(0, 100), parts(-7, 97), parts(-7, 102)]);
    for (parts, whole) in found.iter().zip(metres) {
        assert_eq!(parts.shared.0 + parts.not_shared.0, whole.unwrap().0);
    }
}

#[test]
fn roundings_are_once_a_boundary() {
    // Three boundaries of -1 m, each of two thirds: -1 each. Together they would be -2.
    let share = Share { next: vec![2, 3, 4, 0], load: [0; 7] };
    let zones = [tec(2, 0, 1), tec(2, 0, 1), tec(2, 0, 1), tec(0, 0, 1)];
    let metres = [7, 8, 9, 10].map(|metres| Some(Metres(metres)));
    assert_eq!(zone_parts(&zones, &share, &metres, 1), Some(parts(-3, 10)));
}

#[test]
fn kilowatts_are_added_up_and_rounded_once() {
    let kw = |tec: [i128; 7], load: [u32; 7]| shared_kw(&tec.map(Kw), &Share { next: vec![0], load }).0;
    assert_eq!(kw([1, 1, 1, 1, 1, 1, 1], [500; 7]), 3);
    assert_eq!(kw([1, 1, 0, 0, 0, 0, 0], [500, 500, 0, 0, 0, 0, 0]), 1);
    assert_eq!(kw([1, 1, 0, 0, 0, 0, 0], [500, 499, 0, 0, 0, 0, 0]), 0);
    assert_eq!(kw([0, 0, 1_000, 0, 0, 0, 0], [1_000; 7]), 0);
    assert_eq!(kw([7, 6, 5, 4, 3, 2, 1], [1_000; 7]), 23);
    assert_eq!(kw([100_000_000, 0, 0, 0, 0, 0, 0], [1_000; 7]), 100_000_000);
    assert_eq!(kw([999, 0, 0, 0, 0, 0, 0], [1; 7]), 0);
    assert_eq!(kw([1_000, 0, 0, 0, 0, 0, 0], [1; 7]), 1);
}

#[test]
fn the_tutorial_s_figures() {
    let (case, share) = tutorial();
    let tables = sound_tables(&case).unwrap();
    assert_eq!(zones_with_tec(&tables), [true, true, false, true]);
    // A's boundary lies before 60 MW of type 1, B's before those, 140 MW of type 2 and 100 of type 6.
    let tec = zone_tec(&tables);
    assert_eq!(behind(&tec, &share, 1), tec_behind(60_000, 0));
    assert_eq!(behind(&tec, &share, 2), tec_behind(200_000, 100_000));
    let kilowatts: Vec<i128> = tec.iter().map(|tec| shared_kw(tec, &share).0).collect();
    assert_eq!(kilowatts, [23_100, 107_120, 0, 145_800]);
    let metres = [Some(0), Some(-5_000), None, Some(-7_500)];
    let zones = metres.map(|metres| Zone { metres: metres.map(Metres), chargeable: Kw(7) });
    let split = split(&tables, &share, &zones);
    let of = |zones: &[Zone]| zones.iter().map(|zone| zone.metres.map(|metres| metres.0)).collect::<Vec<_>>();
    assert_eq!(of(&split.shared), [Some(1_666), Some(1_666), None, Some(0)]);
    assert_eq!(of(&split.not_shared), [Some(-1_666), Some(-6_666), None, Some(-7_500)]);
    assert!(split.not_shared.iter().all(|zone| zone.chargeable == Kw(7)));
    assert_eq!(split.shared[1].chargeable, Kw(107_120));
}

#[test]
fn a_sheet_by_hand() {
    // S1 to S4 stand 1,000, 7,003, 2,501 and 4,999 m above HUB year round, and nothing off at peak; S2 lies behind S1, that behind S4,
    // the centre, S3 behind S2 and HUB behind S3. TEC: S1 2,000 kW of type 1, 1,000 of 3; S2 2,000 of 1, 1,001 of 2, 500 of 7; S3 3,000
    // of 2, 1,000 of 3, 700 of 4; S4 1,501 of 1, 500 of 3, 1,203 of 5; HUB type 6, ten times what S1 to S4 make year round, which is
    // demand: 1,400 + 1,000, 1,400 + 850, 2,550 + 1,000, 1,050 + 500 + 601 = 10,351; so 103,510 kW.
    // Behind HUB: carbon. Behind S3: 3,700 low carbon, 104,510 carbon. Behind S2: 6,701 and 105,010. Behind S1: 8,701 and 106,010. All are
    // shared whole: HUB -2,501, S3 -4,502, S2 6,003, S1 -3,999.
    // Shared: S1 -3,999, S2 2,004, S3 -2,498, HUB -4,999; not shared 4,999 everywhere.
    // C: -(1,000 x 2,000 + 7,003 x 3,501 + 2,501 x 3,700 + 4,999 x 2,704) / (115,415 + 10,351) = -391.9. Tariffs 18 a metre.
    // Shared kW by 385, 763, 900, 424, 107, 3, 486 thousandths: S1 770; S2 770 + 763.763 + 243 = 1,776.763; S3 2,289 + 296.8 = 2,585.8; S4
    // 577.885 + 128.721 = 706.606; HUB 310.53.
    // Generation: 50,000,000,000 - 82,926 x 115,415 - (-71,982 x 770 + 36,072 x 1,776 - 44,964 x 2,585 - 89,982 x 310) = 40,564,584,338
    // over 115,415 kW. Demand: 50,000,000,000 - 7,056 x 10,351 over 10,351 kW.
    let sheet = "\
C 0 -392
G 1 0 0 0 4999 4607 82926 -3999 -71982 351467 434393
G 2 0 0 0 4999 4607 82926 2004 36072 351467 434393
G 3 0 0 0 4999 4607 82926 -2498 -44964 351467 434393
G 4 0 0 0 4999 4607 82926 0 0 351467 434393
G 5 0 0 0 4999 4607 82926 -4999 -89982 351467 434393
G 6 -
D 1 0 0 0 0 392 7056 4823395 4830451
L S1 0 0
L S2 0 0
L S3 0 0
L S4 0 0
L HUB 0 0
R 20533 1699
";
    assert_eq!(sheet_of(&cases(), "five zones, next [4, 1, 2, 0, 3, 0]"), sheet);
}

#[test]
fn a_sheet_by_hand_with_fractions() {
    // The same zones, each behind the next: S1, S2, S3, S4, HUB. Behind S1 2,000 low carbon of 3,000: two thirds. Behind S2 5,001 of
    // 6,501: 3,000 / 6,501. Behind S3 8,701 of 11,201: 5,000 / 11,201. Behind S4 10,202 of 14,405: 8,406 / 14,405.
    // Distances -6,003, 4,502, -2,498 and 4,999; shared -4,002, 2,077.5, -1,115.1 and 2,917.2, so -4,002, 2,077, -1,116 and 2,917; not
    // shared -2,001, 2,425, -1,382 and 2,082.
    // Shared: S4 2,917; S3 1,801; S2 3,878; S1 -124. Not shared: S4 2,082; S3 700; S2 3,125; S1 1,124. HUB has neither.
    // Not shared with C times 18: S1 732, 13,176; S2 2,733, 49,194; S3 308, 5,544; S4 1,690, 30,420; HUB -392, -7,056. Shared: S1 -2,232,
    // S2 69,804, S3 32,418, S4 52,506.
    // Generation: 50,000,000,000 - (13,176 x 2,000 + 49,194 x 3,501 + 5,544 x 3,700 + 30,420 x 2,704 - 7,056 x 103,510) - (-2,232 x 770 +
    // 69,804 x 1,776 + 32,418 x 2,585 + 52,506 x 706) = 50,185,894,856 over 115,415 kW.
    let sheet = sheet_of(&cases(), "five zones, next [2, 3, 4, 5, 0, 0]");
    let lines: Vec<&str> = sheet.lines().filter(|line| line.starts_with(['G', 'R'])).collect();
    assert_eq!(
        lines,
        [
            "G 1 0 0 0 1124 732 13176 -124 -2232 434829 448005",
            "G 2 0 0 0 3125 2733 49194 3878 69804 434829 484023",
            "G 3 0 0 0 700 308 5544 1801 32418 434829 440373",
            "G 4 0 0 0 2082 1690 30420 2917 52506 434829 465249",
            "G 5 0 0 0 0 -392 -7056 0 0 434829 427773",
            "G 6 -",
            "R 105821 1699",
        ]
    );
}

/// The answers of a stored case and of the same without its share file.
fn with_and_without(case: &Labelled) -> (String, String) {
    (case.output(), String::from_utf8(program_output(&case.file)).unwrap())
}

/// A `G` line's numbers from its zone on; `None` for another line and for a zone without TEC.
fn generation_line(line: &str) -> Option<Vec<i128>> {
    let fields = line.strip_prefix("G ").filter(|fields| !fields.ends_with('-'))?;
    Some(fields.split(' ').map(|field| field.parse().unwrap()).collect())
}

#[test]
fn a_share_file_changes_year_round_s_generation_alone() {
    for case in cases().iter().filter(|case| !case.share.is_empty()) {
        let (shared, whole) = with_and_without(case);
        if shared == whole || shared.starts_with("refused") {
            continue;
        }
        assert_eq!(shared.lines().count(), whole.lines().count(), "{}", case.label);
        for (shared, whole) in shared.lines().zip(whole.lines()) {
            match (generation_line(shared), generation_line(whole)) {
                (Some(shared), Some(whole)) => same_but_split(&case.label, &shared, &whole),
                _ if shared.starts_with('R') => {
                    assert_eq!(shared.split(' ').next_back(), whole.split(' ').next_back(), "{}", case.label)
                }
                _ => assert_eq!(shared, whole, "{}", case.label),
            }
        }
    }
}

/// A zone's line with a share file and without: the parts add up to the metres, C is the same, and the total leaves the shared tariff
/// out.
fn same_but_split(label: &str, shared: &[i128], whole: &[i128]) {
    let [zone, .., residual, total] = shared[..] else { panic!("{label}") };
    let (peak, own, shared_metres) = (&shared[1..4], &shared[4..7], shared[7]);
    assert_eq!((shared.len(), zone, peak), (11, whole[0], &whole[1..4]), "{label}");
    assert_eq!(own[0] + shared_metres, whole[4], "{label}");
    assert_eq!(own[1] - own[0], whole[5] - whole[4], "{label}");
    assert_eq!(total, peak[2] + own[2] + residual, "{label}");
}

#[test]
fn type_3_s_load_factor_is_used_nowhere() {
    let list = cases();
    let [none, all] = [0, 1_000].map(|factor| sheet_of(&list, &format!("five zones, load factor {factor} of type 3")));
    assert_eq!(none, all);
    let none = sheet_of(&list, "five zones, every load factor 0");
    assert_eq!(none, sheet_of(&list, "five zones, load factor 1000 of type 3 alone"));
    assert_ne!(none, sheet_of(&list, "five zones, load factor 1000 of type 2 alone"));
}

#[test]
fn stations_divided_give_the_same_sheet() {
    let list = cases();
    let whole = sheet_of(&list, "five zones, next [5, 3, 1, 2, 0, 0]");
    for how in ["stations in two", "stations turned round"] {
        assert_eq!(sheet_of(&list, &format!("five zones divided: {how}")), whole, "{how}");
    }
}

#[test]
fn another_reference_moves_not_shared_metres_alone() {
    // Not shared after C, tariffs, shared, residuals and totals don't depend on the reference node.
    let list = cases();
    let kept = |label: &str| -> Vec<Vec<i128>> {
        let line =
            |line: &str| generation_line(line).map(|fields| [&fields[..1], &fields[2..4], &fields[5..]].concat());
        sheet_of(&list, label).lines().filter_map(line).collect()
    };
    for reference in [2, 3] {
        assert_eq!(kept(&format!("TUT3_SHARE from row {reference}")), kept("TUT3_SHARE"), "{reference}");
    }
}

#[test]
fn shared_metres_pass_the_zones_own_by_far() {
    let list = cases();
    let sheet = |first: &str| {
        sheet_of(&list, &format!("shared metres of a swinging chain from {first}, p 500, revenue 100000"))
    };
    assert!(sheet("HIGH").contains("\nG 1 0 0 0 -140000000 -139999303 -69999651500 150000000 75000000000 "));
    assert!(sheet("LOW").contains("\nG 1 0 0 0 160000000 160000697 80000348500 -170000000 -85000000000 "));
}

#[test]
fn absent_empty_or_in_edition_1_nothing_changes() {
    let (case, share) = tutorial();
    assert_eq!(judge_case_with_share(&case.bytes(), case.lent(), &[]), judge_case(&case.bytes(), case.lent()));
    let tables = sound_tables(&case).unwrap();
    assert_eq!(judge_share(&tables, &[]), Ok(None));
    assert_eq!(judge_share(&tables, &share.bytes()), Ok(Some(share.clone())));
    let one = sound_tables(&named_case("TUT1")).unwrap();
    assert_eq!(one.edition, Edition::One);
    for bytes in [&[][..], &[0], &[255; 44], &share.bytes()] {
        assert_eq!(judge_share(&one, bytes), Ok(None));
        for name in ["TUT1", "KILN", "ALONE", "SUBSEA"] {
            assert_eq!(printed_with_share(&named_case(name), bytes), printed(&named_case(name)), "{name}");
        }
    }
    // Of every stored case of edition 1 with bytes the answer is the one without.
    let edition_1 = |case: &Labelled| {
        !case.share.is_empty() && case.label.starts_with(['K', 'T', 'L']) && !case.label.contains("TUT3")
    };
    let list = cases();
    assert_eq!(list.iter().filter(|case| edition_1(case)).count(), 16);
    for case in list.iter().filter(|case| edition_1(case)) {
        let (with, without) = with_and_without(case);
        assert_eq!(with, without, "{}", case.label);
    }
}

#[test]
fn the_entry_with_a_buffer() {
    let (case, share) = tutorial();
    let (file, runs) = (case.bytes(), case.lent());
    let sheet = judge_case_with_share(&file, runs, &share.bytes()).unwrap();
    assert_eq!(sheet, folder_file("TUT3_SHARE.sheet"));
    assert_eq!(program_output_with_share(&file, &share.bytes()), sheet);
    let mut buffer = vec![7; sheet.len() + 1];
    assert_eq!(judge_into_with_share(&file, runs, &share.bytes(), &mut buffer), Answer::Accepted(sheet.len()));
    assert_eq!(buffer, [&sheet[..], &[7]].concat());
    let mut short = vec![7; sheet.len() - 1];
    let twelve = Answer::Refused(Refusal { number: 12, system: 0, row: 0 });
    assert_eq!(judge_into_with_share(&file, runs, &share.bytes(), &mut short), twelve);
    // 16 goes before 12.
    assert_eq!(judge_into_with_share(&file, runs, &[1], &mut short), Answer::Refused(sixteen(0)));
    assert_eq!(short, vec![7; sheet.len() - 1]);
}

#[test]
fn row_0_of_lengths_and_load_factors() {
    let (case, share) = tutorial();
    let tables = sound_tables(&case).unwrap();
    let bytes = share.bytes();
    assert_eq!(bytes.len(), 44);
    let long = bytes.repeat(3);
    for length in (1..=long.len()).filter(|length| *length != 44) {
        assert_eq!(judge_share(&tables, &long[..length]), Err(sixteen(0)), "{length}");
    }
    for place in 0..7 {
        for (factor, sound) in [(0, true), (1_000, true), (1_001, false), (66_536, false), (u32::MAX, false)] {
            let mut other = share.clone();
            other.load[place] = factor;
            assert_eq!(judge_share(&tables, &other.bytes()).is_ok(), sound, "{place} {factor}");
            // Before any zone.
            other.next[0] = 1;
            let row = if sound { 1 } else { 0 };
            assert_eq!(judge_share(&tables, &other.bytes()), Err(sixteen(row)), "{place} {factor}");
        }
    }
}

/// The answer for the numbers of TUT3_E2's zones, of which 1, 2 and 4 have TEC; 0 where they are sound.
fn row_of(tables: &Tables, next: [u32; 4]) -> u32 {
    let share = Share { next: next.to_vec(), load: [0; 7] };
    match judge_share(tables, &share.bytes()) {
        Ok(_) => 0,
        Err(refusal) => {
            assert_eq!((refusal.number, refusal.system), (16, 0));
            refusal.row
        }
    }
}

#[test]
fn each_fault_of_a_zone() {
    let tables = sound_tables(&tutorial().0).unwrap();
    for (next, row) in [
        // Sound.
        ([2, 4, 0, 0], 0),
        ([0, 1, 0, 2], 0),
        ([4, 4, 0, 0], 0),
        // An absent one; chains that end there don't circle.
        ([5, 4, 0, 0], 1),
        ([2, 5, 0, 0], 2),
        ([2, 4, 5, 0], 3),
        ([2, 4, 0, 5], 4),
        ([2, 4, 0, u32::MAX], 4),
        // One without TEC, and one without TEC that names one.
        ([3, 4, 0, 0], 1),
        ([2, 3, 0, 0], 2),
        ([2, 4, 1, 0], 3),
        ([2, 4, 0, 3], 4),
        // A second centre.
        ([0, 4, 0, 0], 4),
        ([2, 0, 0, 0], 4),
        ([0, 0, 0, 1], 2),
        ([0, 0, 0, 0], 2),
        // Circles, alone and led into; through the zone without TEC too.
        ([1, 4, 0, 0], 1),
        ([2, 2, 0, 0], 1),
        ([4, 2, 0, 0], 2),
        ([2, 4, 3, 0], 3),
        ([2, 4, 0, 4], 1),
        ([2, 1, 0, 0], 1),
        ([0, 4, 0, 2], 2),
        ([2, 4, 0, 2], 1),
        ([2, 4, 0, 1], 1),
        ([2, 3, 1, 0], 1),
        ([2, 3, 2, 0], 1),
        ([4, 3, 2, 0], 2),
    ] {
        assert_eq!(row_of(&tables, next), row, "{next:?}");
    }
}

/// 02, CR 6, found a second way: the lowest zone with a fault, by walks of so many steps that only a circle isn't left by then.
fn lowest_fault(with_tec: [bool; 4], next: [u32; 4]) -> u32 {
    let circles = |zone: usize| {
        let mut here = zone as u32;
        for _ in 0..100 {
            here = if (1..=4).contains(&here) { next[here as usize - 1] } else { 0 };
        }
        here != 0
    };
    let centres: Vec<usize> = (1..=4).filter(|zone| with_tec[zone - 1] && next[zone - 1] == 0).collect();
    let fault = |zone: &usize| {
        let named = next[zone - 1] as usize;
        named > 4
            || (named > 0 && !(with_tec[named - 1] && with_tec[zone - 1]))
            || centres.iter().skip(1).any(|centre| centre == zone)
            || circles(*zone)
    };
    (1..=4).find(fault).unwrap_or(0) as u32
}

#[test]
fn every_file_of_four_zones() {
    let tables = sound_tables(&tutorial().0).unwrap();
    let mut counts = BTreeMap::new();
    for number in 0..6u32.pow(4) {
        let next = [0, 1, 2, 3].map(|place| number / 6u32.pow(place) % 6);
        let row = row_of(&tables, next);
        assert_eq!(row, lowest_fault([true, true, false, true], next), "{next:?}");
        *counts.entry(row).or_insert(0) += 1;
    }
    // Trees over three zones are nine.
    assert_eq!(counts[&0], 9);
    assert_eq!(counts.values().sum::<i32>(), 1_296);
}

#[test]
fn every_file_of_four_zones_with_tec() {
    let mut case = tutorial().0;
    case.stations[2].node = name("SUBC");
    let tables = sound_tables(&solved(&case).0).unwrap();
    let mut sound = 0;
    for number in 0..6u32.pow(4) {
        let next = [0, 1, 2, 3].map(|place| number / 6u32.pow(place) % 6);
        let row = row_of(&tables, next);
        assert_eq!(row, lowest_fault([true; 4], next), "{next:?}");
        sound += (row == 0) as u32;
    }
    // Trees over four zones, each of them the centre.
    assert_eq!(sound, 64);
}

#[test]
fn files_by_chance() {
    let mut told = BTreeMap::new();
    for seed in 0..1_500 {
        let case = random_of_edition_2(seed, 12);
        let Ok(tables) = sound_tables(&case) else { continue };
        let share = sound(&tables, seed);
        assert_eq!(judge_share(&tables, &share.bytes()), Ok(Some(share.clone())), "{seed}");
        assert_eq!(Share::read(&share.bytes(), share.next.len()), Some(share));
        let spoiled = spoiled(&tables, seed);
        assert_eq!(judge_share(&tables, &spoiled.bytes), Err(sixteen(spoiled.row)), "{seed} {}", spoiled.kind);
        *told.entry(spoiled.kind).or_insert(0) += 1;
    }
    assert!(kinds().iter().all(|kind| told[kind] >= 20), "{told:?}");
}

#[test]
fn parts_add_up_by_chance() {
    let mut deepest = 0;
    for seed in 0..150 {
        let mut case = random_of_edition_2(seed, 60);
        let nodes = case.nodes.len() as u32;
        case.settings.generation_zones = nodes.min(32);
        case.nodes.iter_mut().zip(0..).for_each(|(row, place)| row.generation_zone = place % 32 + 1);
        let Ok(tables) = sound_tables(&case) else { continue };
        let share = sound(&tables, seed);
        let whole = |zone: i128| Zone { metres: Some(Metres(zone * zone * 977 - 90_001)), chargeable: Kw(zone) };
        let zones: Vec<Zone> = zones_with_tec(&tables)
            .into_iter()
            .zip(1..)
            .map(|(has, zone)| Zone { metres: whole(zone).metres.filter(|_| has), ..whole(zone) })
            .collect();
        let split = split(&tables, &share, &zones);
        for (zone, (shared, not_shared)) in zones.iter().zip(split.shared.iter().zip(&split.not_shared)) {
            let sum = shared.metres.zip(not_shared.metres).map(|(shared, other)| Metres(shared.0 + other.0));
            assert_eq!(sum, zone.metres, "{seed}");
        }
        let lengths = (1..=zones.len()).map(|zone| share.chain(zone).unwrap().len());
        deepest = deepest.max(lengths.max().unwrap());
    }
    assert!(deepest >= 25, "{deepest}");
}

#[test]
fn order_of_all_numbers_around_16() {
    type Fault = (fn(&mut Case), (u32, u32, u32));
    const BEFORE: [Fault; 8] = [
        (|case| case.settings.zero = 1, (1, 0, 0)),
        (|case| case.settings.p = 1_001, (2, 0, 0)),
        (|case| case.nodes[3].demand_zone = 5, (3, 0, 4)),
        (|case| case.circuits[3].x = 0, (4, 0, 4)),
        (|case| case.stations[3].plant = 8, (5, 0, 4)),
        (|case| case.nodes[1].demand = 10_000_000, (7, 0, 0)),
        (|case| case.stations.iter_mut().for_each(|row| row.plant = 3), (13, 0, 0)),
        (|case| case.stations[3].plant = 1, (14, 0, 0)),
    ];
    const BEHIND: [Fault; 8] = [
        (|case| case.runs[0][0] = 1, (8, 1, 1)),
        (|case| case.runs[0][4] += 1, (9, 1, 1)),
        (|case| case.runs[0][3] += 100_000_001, (10, 1, 0)),
        (|case| case.runs[3][0] = 1, (8, 4, 1)),
        (|case| case.circuits[1].overhead = 0, (10, 2, 0)),
        (|case| case.runs[1][4] = i64::MIN, (8, 2, 5)),
        (|case| case.runs[4][4] += 1, (9, 5, 1)),
        (|case| case.runs[2][3] += 100_000_001, (10, 3, 0)),
    ];
    let (case, share) = tutorial();
    let answer = |changes: &[Fault], share: &[u8]| {
        let mut changed = case.clone();
        changes.iter().for_each(|(change, _)| change(&mut changed));
        printed_with_share(&changed, share)
    };
    let said = |(number, system, row): (u32, u32, u32)| format!("refused {number} {system} {row}");
    let circle = Share { next: vec![2, 1, 0, 0], ..share.clone() }.bytes();
    for fault in BEFORE {
        assert_eq!(answer(&[fault], &share.bytes()), said(fault.1));
        assert_eq!(answer(&[fault], &circle), said(fault.1));
        assert_eq!(answer(&[fault], &[0]), said(fault.1));
    }
    for fault in BEHIND {
        assert_eq!(answer(&[fault], &[]), said(fault.1));
        assert_eq!(answer(&[fault], &share.bytes()), said(fault.1));
        assert_eq!(answer(&[fault], &circle), said((16, 0, 1)));
        assert_eq!(answer(&[fault], &[0]), said((16, 0, 0)));
    }
}

#[test]
fn every_row_of_16_occurs() {
    let mut rows = BTreeMap::new();
    for case in cases() {
        if let Told::Refused(16, 0, row) = case.told {
            *rows.entry(row).or_insert(0) += 1;
        }
    }
    assert!((0..=6).chain([31, 32]).all(|row| rows.contains_key(&row)), "{rows:?}");
    assert!((0..=6).all(|row| rows[&row] >= 7), "{rows:?}");
}
