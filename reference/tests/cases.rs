//! The folder of texts: every sheet, and the figures that the sources print.

mod common;

use common::*;
use reference::file::{Case, Edition, Version};
use reference::tables::INTERCONNECTOR;
use reference::{judge_case, program_output, program_output_with_share, solver, text};

const NAMES: [&str; 17] = [
    "KILN",
    "CUSC1421",
    "TUT1",
    "TUT1_P5",
    "TUT1_P150",
    "TUT1_P200",
    "TUT2_275",
    "CUSC1422",
    "TUT8_TARIFF",
    "ALONE",
    "TUT1_IC",
    "LINKS",
    "SUBSEA",
    "KILN_2",
    "TUT3_E2",
    "TUT3_NOPEAK",
    "SEVEN",
];

#[test]
fn each_text_gives_its_sheet() {
    for name in NAMES {
        let file = text::make(&folder_file(&format!("{name}.txt"))).unwrap();
        let sheet = String::from_utf8(folder_file(&format!("{name}.sheet"))).unwrap();
        assert_eq!(String::from_utf8(program_output(&file)).unwrap(), sheet, "{name}");
        assert_eq!(judge_case(&file, named_case(name).lent()), Ok(sheet.into_bytes()), "{name}");
    }
}

/// Texts whose solutions are another solver's, or chosen: at the ends of their ranges, or by hand.
const CHOSEN: [&str; 7] = ["DALE", "HIGH", "LOW", "TARN", "TARN_MIRROR", "TUT1_OTHER", "TARN_METRE"];

#[test]
fn each_chosen_text_gives_its_sheet() {
    for name in CHOSEN {
        let file = text::make(&folder_file(&format!("{name}.txt"))).unwrap();
        assert_eq!(program_output(&file), folder_file(&format!("{name}.sheet")), "{name}");
    }
}

#[test]
fn each_text_is_made_shown_and_made_again() {
    for name in NAMES {
        let file = text::make(&folder_file(&format!("{name}.txt"))).unwrap();
        assert_eq!(text::make(text::show(&file).as_bytes()), Ok(file), "{name}");
    }
}

#[test]
fn the_solver_finds_each_text_s_solutions() {
    for name in NAMES {
        let case = named_case(name);
        assert_eq!(solver::solved(&case), (case, None), "{name}");
    }
}

/// The sheet holds these lines.
fn prints(name: &str, lines: &[&str]) {
    let sheet = printed(&named_case(name));
    for line in lines {
        assert!(sheet.lines().any(|printed| printed == *line), "{name}: {line}\n{sheet}");
    }
}

/// The sheet holds lines that begin so.
fn begins(name: &str, starts: &[&str]) {
    let sheet = printed(&named_case(name));
    for start in starts {
        assert!(sheet.lines().any(|printed| printed.starts_with(start)), "{name}: {start}\n{sheet}");
    }
}

/// The sheet is this.
fn is(name: &str, sheet: &str) {
    assert_eq!(printed(&named_case(name)), sheet.trim_end());
}

#[test]
fn kiln_as_01_prints_it() {
    assert_eq!(kiln().bytes().len(), 540);
    is(
        "KILN",
        "C -20289\nG 1 28333 8044 144792 21874 166666\nD 1 -4200 16089 289602 43731 333333\nL NODA 0 0\nL NODB 0 0\nR 200000 50000\n",
    );
    let case = kiln();
    let e9 = 1_000_000_000;
    assert_eq!(case.runs[0], [11_000 * e9, 6_500 * e9, 0, 45 * e9, 65 * e9, 55 * e9]);
    assert_eq!(case.runs[1], [32_000 * e9, 21_000 * e9, 0, 10 * e9, 10 * e9, -10 * e9]);
    assert_eq!(case.runs[2], [0; 6]);
}

#[test]
fn cusc1421_as_the_sources_have_it() {
    is(
        "CUSC1421",
        "\
C -2539
G 1 0 -2539 -46022 3545365 3499343
G 2 11000 8461 153364 3545365 3698729
G 3 -
D 1 0 2539 46022 12461277 12507299
D 2 -11000 -8461 -153364 12461277 12307913
D 3 12500 15039 272597 12461277 12733874
L A 0 0
L B 0 0
R 1045000 450000
",
    );
    let case = named_case("CUSC1421");
    let e9 = 1_000_000_000;
    assert_eq!(case.runs[0], [0, 10_000 * e9, -45_000 * e9, 450 * e9, -50 * e9, 550 * e9]);
    assert_eq!(case.runs[1], [0, 11_000 * e9, -12_500 * e9, 25 * e9, -25 * e9, -25 * e9]);
    assert_eq!(case.runs[2], [0; 6]);
}

#[test]
fn tut1_as_the_sources_have_it() {
    is(
        "TUT1",
        "\
C 11786
G 1 0 11786 212148 2094852 2307000
G 2 -10000 1786 32148 2094852 2127000
G 3 -
G 4 -15000 -3214 -57852 2094852 2037000
D 1 -
D 2 10000 -1786 -32148 12138814 12106666
D 3 15000 3214 57852 12138814 12196666
D 4 -
L SUBA 0 0
L SUBB 0 0
L SUBD 30000 300000
R 0 200000
",
    );
    let case = named_case("TUT1");
    let e8 = 100_000_000;
    assert_eq!(case.runs[0], [0, -1_250 * e8, -6_875 * e8, 30_625 * e8, 25 * e8, 275 * e8, 225 * e8, 1_500 * e8]);
    assert_eq!(case.runs[1], [0, -100_000 * e8, -150_000 * e8, -150_000 * e8, -2_000 * e8, 2_000 * e8, -2_000 * e8, 0]);
    assert_eq!(case.runs[2], [0, 0, 0, 300_000 * e8, 0, 0, 0, 0]);
}

#[test]
fn tut1_ic_is_tut1_where_suba_does_not_pay() {
    prints(
        "TUT1_IC",
        &[
            "C 12872",
            "G 1 0 12872 231696 2331637 2563333",
            "G 2 -10000 2872 51696 2331637 2383333",
            "G 3 -",
            "G 4 -15000 -2128 -38304 2331637 2293333",
            "D 1 -",
            "D 2 10000 -2872 -51696 12158362 12106666",
            "D 3 15000 2128 38304 12158362 12196666",
            "D 4 -",
            "L SUBA 0 0",
            "L SUBB 0 0",
            "L SUBD 30000 300000",
            "R 180000 200000",
        ],
    );
    // The same tables but for the type, and the same solutions.
    let mut case = named_case("TUT1_IC");
    assert_eq!(case.stations[0].plant, INTERCONNECTOR);
    case.stations[0].plant = 7;
    assert_eq!(case, named_case("TUT1"));
}

#[test]
fn links_by_hand() {
    // Wider PORT and BAY 14,010 m, FELL 14,670 m; local PORT 10,250 m, BAY 2,250 m, FELL -2,250 m. Chargeable are 45,000 kW at BAY
    // and 80,000 at FELL; zone 2 weighs 80,000 at each.
    prints(
        "LINKS",
        &[
            "C -10955",
            "G 1 14010 3055 55375 5012603 5067978",
            "G 2 14340 3385 61357 5012603 5073960",
            "G 3 -",
            "D 1 -14010 -3055 -55375 13012382 12957007",
            "D 2 0 10955 198570 13012382 13210952",
            "L PORT 10250 118700",
            "L BAY 2250 26056",
            "L FELL -2250 -26056",
            "R 20000 80000",
        ],
    );
    let case = named_case("LINKS");
    let e7 = 10_000_000;
    assert_eq!(
        case.runs[0],
        [825_000 * e7, 625_000 * e7, 0, 475_000 * e7, 5_000 * e7, 6_250 * e7, 4_750 * e7, -750 * e7]
    );
    assert_eq!(case.runs[1], [1_401_000 * e7, 1_401_000 * e7, 0, 1_467_000 * e7, 0, 330 * e7, -330 * e7, 330 * e7]);
    assert_eq!(case.runs[2], [1_025_000 * e7, 225_000 * e7, 0, -225_000 * e7, 0, 2_250 * e7, -2_250 * e7, 2_250 * e7]);
}

#[test]
fn subsea_by_hand() {
    is(
        "SUBSEA",
        "\
C -169622
G 1 396300 226678 4080204 1156989 5237193
G 2 153900 -15722 -282996 1156989 873993
D 1 -110700 58922 1060596 1611620 2672216
D 2 0 169622 3053196 1611620 4664816
L SKERRY 18900 189000
L NESS 18900 189000
L HOLM -9450 -94500
R 50000 80000
",
    );
    let case = named_case("SUBSEA");
    assert_eq!(case.version, Version::Two);
    let rows: Vec<(u32, u32)> = case.circuits.iter().map(|row| (row.voltage, row.factor)).collect();
    assert_eq!(rows, [(320, 3_500), (525, 2_250), (400, 1_800), (400, 0)]);
}

/// The text of this name is stored as a file too, for clients.
fn is_stored_as_a_file(name: &str, length: usize) {
    let file = named_case(name).bytes();
    assert_eq!(file.len(), length);
    assert_eq!(file, folder_file(&format!("{name}.case")));
}

#[test]
fn subsea_is_stored_as_a_file() {
    is_stored_as_a_file("SUBSEA", 704);
}

#[test]
fn tut3_e2_is_stored_as_a_file() {
    is_stored_as_a_file("TUT3_E2", 880);
}

#[test]
fn tut3_share_by_hand() {
    // TUT3_E2 and a share file: 5,000 m all low carbon, and two thirds of 2,500 m. C, demand and local stay.
    let share = text::share::make(&folder_file("TUT3_SHARE.share.txt")).unwrap();
    assert_eq!(share, folder_file("TUT3_SHARE.share"));
    let sheet = printed_with_share(&named_case("TUT3_E2"), &share);
    assert_eq!(format!("{sheet}\n").into_bytes(), folder_file("TUT3_SHARE.sheet"));
    let whole = printed(&named_case("TUT3_E2"));
    let changed: Vec<&str> =
        sheet.lines().zip(whole.lines()).filter(|(shared, whole)| shared != whole).map(|(shared, _)| shared).collect();
    assert_eq!(
        changed,
        [
            "G 1 0 -7819 -140742 -1666 4227 76086 1666 29988 2102079 2037423",
            "G 2 15000 7181 129258 -6666 -773 -13914 1666 29988 2102079 2217423",
            "G 4 2500 -5319 -95742 -7500 -1607 -28926 0 0 2102079 1977411",
            "R 242640 200000",
        ]
    );
}

#[test]
fn tut3_e2_as_the_sources_have_it() {
    is(
        "TUT3_E2",
        "\
C -7819 5893
G 1 0 -7819 -140742 0 5893 106074 2093593 2058925
G 2 15000 7181 129258 -5000 893 16074 2093593 2238925
G 3 -
G 4 2500 -5319 -95742 -7500 -1607 -28926 2093593 1968925
D 1 -
D 2 -15000 -7181 -129258 5000 -893 -16074 12131998 11986666
D 3 -2500 5319 95742 7500 1607 28926 12131998 12256666
D 4 -
L SUBA 0 0
L SUBB 0 0
L SUBD 30000 300000
R 480000 200000
",
    );
    let case = named_case("TUT3_E2");
    assert_eq!((case.edition, case.version, case.bytes().len()), (Edition::Two, Version::Two, 880));
    let flows = [0, 3].map(|place: usize| &case.runs[place][4..]);
    assert_eq!(flows[0], [5_750_000_000, 36_250_000_000, 24_750_000_000, 139_000_000_000]);
    assert_eq!(flows[1], [-8_333_500_000, 8_333_500_000, 25_000_500_000, 166_666_000_000]);
}

#[test]
fn tut3_nopeak_by_hand() {
    is(
        "TUT3_NOPEAK",
        "\
C 0 12078
G 1 0 0 0 0 12078 217404 2514996 2732400
G 2 0 0 0 -10000 2078 37404 2514996 2552400
G 3 -
G 4 0 0 0 -15000 -2922 -52596 2514996 2462400
D 1 -
D 2 0 0 0 10000 -2078 -37404 12144070 12106666
D 3 0 0 0 15000 2922 52596 12144070 12196666
D 4 -
L SUBA 0 0
L SUBB 0 0
L SUBD 30000 300000
R 0 200000
",
    );
    // TUT3_E2 without its peaking plant.
    let mut closed = named_case("TUT3_E2");
    closed.stations.remove(2);
    assert_eq!(solver::solved(&closed).0, named_case("TUT3_NOPEAK"));
}

#[test]
fn both_by_hand() {
    is(
        "SEVEN",
        "\
C -5741 -15600
G 1 8000 2259 40662 64000 48400 871200 1496166 2408028
G 2 3472 -2269 -40842 14755 -845 -15210 1496166 1440114
G 3 12000 6259 112662 7000 -8600 -154800 1496166 1454028
G 4 -
D 1 -10667 -4926 -88668 -16000 -400 -7200 2553641 2457773
D 2 0 5741 103338 0 15600 280800 2553641 2937779
D 3 -
L MOOR 0 0
L PORT 0 0
L LAKE 12000 120000
L TOWN 0 0
R 140000 140000
",
    );
    let case = named_case("SEVEN");
    assert_eq!(case.bytes().len(), 1_128);
    let e6 = 1_000_000;
    let base = [12_200_000, 8_000_000, 2_250_000, 3_500_000, 0, 42_000, 40_000, 45_000, 35_000, 45_000];
    let peak_base = [3_125_000, 3_125_000, 3_375_000, 3_687_500, 0, 0, 15_625, -5_625, 36_875, 67_500];
    assert_eq!(case.runs[0], base.map(|number| number * e6));
    assert_eq!(case.runs[3], peak_base.map(|number| number * e6));
}

#[test]
fn another_reference_leaves_what_follows_either_c() {
    // Metres after C, tariffs, residuals and totals of TUT3_E2 from each node of its loop.
    let after_c = |reference: u32| -> Vec<String> {
        let mut case = named_case("TUT3_E2");
        case.settings.reference = reference;
        let sheet = printed(&solver::solved(&case).0);
        let kept = |(place, _): &(usize, &str)| ![2, 5].contains(place);
        let fields =
            |line: &str| line.split(' ').enumerate().filter(kept).map(|(_, field)| field.to_string()).collect();
        let lines: Vec<Vec<String>> = sheet.lines().filter(|line| line.starts_with(['G', 'D'])).map(fields).collect();
        lines.iter().map(|line| line.join(" ")).collect()
    };
    assert!(after_c(1)[0].starts_with("G 1 -7819 -140742 5893 106074 "));
    for reference in 2..=3 {
        assert_eq!(after_c(reference), after_c(1), "{reference}");
    }
}

#[test]
fn kiln_2_is_kiln_in_version_2() {
    assert_eq!(named_case("KILN_2"), kiln().in_version(Version::Two).unwrap());
    assert_eq!(named_case("KILN_2").bytes().len(), 552);
    assert_eq!(printed(&named_case("KILN_2")), printed(&kiln()));
}

#[test]
fn tutorial_exercises_as_the_sources_have_them() {
    // Distances A 0, B, D; demand B, C; local D 30 km; and C.
    begins(
        "TUT1_P5",
        &["C 11774", "G 1 0 ", "G 2 -10000 ", "G 4 -15000 ", "D 2 10000 ", "D 3 15000 ", "L SUBD 30000 "],
    );
    for name in ["TUT1_P150", "TUT1_P200"] {
        begins(name, &["G 1 0 ", "G 2 10000 ", "G 4 -5000 ", "D 2 -10000 ", "D 3 5000 ", "L SUBD 30000 "]);
    }
    prints("TUT1_P150", &["C -2788"]);
    prints("TUT1_P200", &["C -3183"]);
    begins("TUT2_275", &["C 11153", "G 1 0 ", "G 2 -5000 ", "G 4 -17500 ", "D 2 5000 ", "D 3 17500 ", "L SUBD 30000 "]);
    let flows = &named_case("TUT1_P150").runs[0][4..];
    assert_eq!(flows, [-8_000_000_000, 32_000_000_000, 48_000_000_000, 120_000_000_000]);
}

#[test]
fn cusc1422_as_the_sources_have_it() {
    assert_eq!(named_case("CUSC1422").nodes.len(), 26);
    prints("CUSC1422", &["C -239590", "G 4 1127800 888210 16099694 4290385 20390079", "L CEAN1Q 100000 1007000"]);
    begins("CUSC1422", &["D 14 287985 527575 9562824 "]);
}

#[test]
fn tut8_tariff_as_the_sources_have_it() {
    assert_eq!(named_case("TUT8_TARIFF").nodes.len(), 22);
    prints(
        "TUT8_TARIFF",
        &[
            "C -205030",
            "G 1 1096740 891710 17880569 3607895 21488464",
            "G 9 303430 98400 1973117 3607895 5581012",
            "G 20 -325980 -531010 -10647813 3607895 -7039918",
            "D 1 -80785 124245 2491361 19708363 22199724",
        ],
    );
}

/// TUT1 solved for another reference node.
fn tut1_from(reference: u32) -> String {
    let mut case = named_case("TUT1");
    case.settings.reference = reference;
    printed(&solver::solved(&case).0)
}

#[test]
fn another_reference_leaves_what_follows_c() {
    // Metres after C, tariffs, residuals and totals of TUT1 don't depend on the reference node.
    let after_c = |sheet: &str| -> Vec<String> {
        let fields = |line: &str| line.split(' ').skip(3).collect::<Vec<_>>().join(" ");
        sheet.lines().filter(|line| line.starts_with(['G', 'D'])).map(fields).collect()
    };
    let expected = after_c(&tut1_from(1));
    for reference in 2..=3 {
        assert_eq!(after_c(&tut1_from(reference)), expected, "{reference}");
    }
}

#[test]
fn a_reference_behind_a_local_circuit_moves_local_metres() {
    // Local metres count from the reference and have no C: from D, A and B stand 30 km away and D nowhere. Generation's
    // residual makes up for the other local income.
    let sheet = tut1_from(4);
    for line in
        ["G 1 15000 11786 212148 2394852 2607000", "L SUBA -30000 -300000", "L SUBB -30000 -300000", "L SUBD 0 0"]
    {
        assert!(sheet.lines().any(|printed| printed == line), "{line}\n{sheet}");
    }
}

#[test]
fn largest_is_accepted() {
    let case = reference::largest::largest();
    assert_eq!((case.nodes.len(), case.circuits.len(), case.stations.len()), (256, 512, 512));
    assert_eq!(case.bytes().len(), 63_616);
    let sheet = printed(&case);
    assert_eq!(sheet.lines().filter(|line| line.starts_with("G ") && !line.ends_with('-')).count(), 32);
    assert_eq!(sheet.lines().filter(|line| line.starts_with("D ") && !line.ends_with('-')).count(), 32);
    assert!(judged(&case).is_ok());
}

#[test]
fn largest_of_version_2_is_accepted() {
    let case = reference::largest::largest_of_version_2();
    assert_eq!((case.nodes.len(), case.circuits.len(), case.stations.len()), (256, 480, 512));
    assert_eq!(case.bytes().len(), 63_360);
    let with = |voltage: u32| case.circuits.iter().any(|row| row.voltage == voltage && row.factor > 0);
    assert!([132, 275, 400, 320, 525].into_iter().all(with));
    assert!(judged(&case).is_ok(), "{}", printed(&case));
}

/// The file of this name in the folder is this case, of so many bytes, and its sheet stands beside it.
fn is_stored_with_its_sheet(name: &str, case: &Case, length: usize, sheet_length: usize) {
    let file = case.bytes();
    assert_eq!(file.len(), length);
    assert_eq!(file, folder_file(&format!("{name}.case")));
    let sheet = program_output(&file);
    assert_eq!(sheet.len(), sheet_length);
    assert_eq!(sheet, folder_file(&format!("{name}.sheet")));
}

#[test]
fn longest_is_stored_with_its_sheet() {
    is_stored_with_its_sheet("LONGEST", &reference::longest::longest(), 63_616, 13_196);
}

#[test]
fn longest_of_edition_2_is_stored_with_its_sheet() {
    is_stored_with_its_sheet("LONGEST_EDITION_2", &reference::longest::longest_of_edition_2(), 61_072, 15_145);
}

#[test]
fn longest_share_is_stored_with_its_sheet() {
    let (case, share) = reference::longest::longest_share();
    assert_eq!((case.nodes.len(), case.circuits.len(), case.stations.len()), (256, 320, 512));
    assert_eq!((case.bytes().len(), share.bytes().len()), (61_072, 156));
    assert_eq!(case.bytes(), folder_file("LONGEST_SHARE.case"));
    assert_eq!(share.bytes(), folder_file("LONGEST_SHARE.share"));
    let sheet = program_output_with_share(&case.bytes(), &share.bytes());
    assert_eq!(sheet.len(), 15_814);
    assert_eq!(sheet, folder_file("LONGEST_SHARE.sheet"));
    // The longest line, without its line feed.
    assert_eq!(String::from_utf8(sheet).unwrap().lines().map(str::len).max(), Some(115));
}
