//! The archive of labelled cases: its answers are 01's and 02's, every answer occurs, and the stored files are these.

mod common;

use common::{folder_file, sheet_of};
use reference::program_output;
use reference::replay::{
    archive, cases, entries, expected, ArchiveError, Entry, Labelled, Told, LONGEST, LONGEST_SHARE,
};
use std::collections::{BTreeMap, HashMap};

/// A stored file of the folder of data.
fn stored(name: &str) -> Vec<u8> {
    let path = concat!(env!("CARGO_MANIFEST_DIR"), "/../crates/replay/");
    std::fs::read(format!("{path}{name}")).unwrap_or_else(|fault| panic!("{name}: {fault}"))
}

/// The number of the refusal, 0 for a sheet.
fn number(case: &Labelled) -> u32 {
    let line = case.first_line();
    match line.strip_prefix("refused ") {
        Some(rest) => rest.split(' ').next().unwrap().parse().unwrap(),
        None => 0,
    }
}

#[test]
fn answers_are_those_told() {
    let mut wrong = Vec::new();
    for case in cases() {
        let line = case.first_line();
        let right = match case.told {
            Told::Sheet => line.starts_with("C "),
            Told::Refused(number, system, row) => line == format!("refused {number} {system} {row}"),
            Told::Open => true,
        };
        if !right {
            wrong.push(format!("{}: {line}, told {:?}", case.label, case.told));
        }
    }
    assert!(wrong.is_empty(), "{} answers\n{}", wrong.len(), wrong.join("\n"));
}

#[test]
fn every_answer_occurs() {
    let mut counts = BTreeMap::new();
    let cases = cases();
    // As README.md says.
    assert_eq!(cases.len(), 5_100);
    for case in cases {
        *counts.entry(number(&case)).or_insert(0) += 1;
    }
    assert_eq!(counts.keys().copied().collect::<Vec<u32>>(), (0..=11).chain(13..=16).collect::<Vec<u32>>());
    assert!(counts.values().all(|count| *count >= 5), "{counts:?}");
}

#[test]
fn no_label_and_no_file_stands_twice() {
    let cases = cases();
    let mut labels = HashMap::new();
    let mut files = HashMap::new();
    let mut twice = Vec::new();
    for case in &cases {
        twice.extend(labels.insert(&case.label, &case.label));
        twice.extend(files.insert((&case.file, &case.share), &case.label));
    }
    assert!(twice.is_empty(), "{twice:#?}");
}

#[test]
fn lengths_go_from_nothing_to_the_longest() {
    let lengths: Vec<usize> = cases().iter().map(|case| case.file.len()).collect();
    assert_eq!(lengths.iter().min(), Some(&0));
    assert_eq!(lengths.iter().max(), Some(&LONGEST));
    let lengths: Vec<usize> = cases().iter().map(|case| case.share.len()).collect();
    assert_eq!(lengths.iter().max(), Some(&LONGEST_SHARE));
}

#[test]
fn stored_files_are_made_again() {
    let made = archive(&cases());
    assert!(made.len() < 8_000_000, "{}", made.len());
    assert!(stored("stdin") == made, "crates/replay/stdin is another archive");
    assert!(stored("stdout") == expected(&made).unwrap(), "crates/replay/stdout is another text");
}

#[test]
fn archives_come_back() {
    let cases = cases();
    let made: Vec<Entry> = cases.iter().map(|case| Entry { file: &case.file, share: &case.share }).collect();
    assert_eq!(entries(&archive(&cases)), Ok(made));
    assert_eq!(entries(&[]), Ok(vec![]));
    let nothing = Entry { file: &[], share: &[] };
    assert_eq!(entries(&[0; 8]), Ok(vec![nothing]));
    let both = [1, 0, 0, 0, 7, 2, 0, 0, 0, 8, 9];
    assert_eq!(entries(&both), Ok(vec![Entry { file: &[7], share: &[8, 9] }]));
    for length in 1..both.len() {
        assert_eq!(entries(&both[..length]), Err(ArchiveError { entry: 1 }), "{length}");
        assert_eq!(entries(&[&[0; 8], &both[..length]].concat()), Err(ArchiveError { entry: 2 }), "{length}");
    }
    let of = |length: usize| [&(length as u32).to_le_bytes()[..], &vec![0; length]].concat();
    assert!(entries(&[of(LONGEST), of(LONGEST_SHARE)].concat()).is_ok());
    assert_eq!(entries(&[of(LONGEST + 1), of(0)].concat()), Err(ArchiveError { entry: 1 }));
    assert_eq!(entries(&[of(0), of(LONGEST_SHARE + 1)].concat()), Err(ArchiveError { entry: 1 }));
    assert_eq!(expected(&[0; 16]), Ok(b"refused 1 0 0\nrefused 1 0 0\n".to_vec()));
}

#[test]
fn the_first_sheet_is_kiln_s() {
    let first = cases().swap_remove(0);
    assert_eq!(first.label, "KILN");
    let sheet = concat!(env!("CARGO_MANIFEST_DIR"), "/../cases/KILN.sheet");
    assert_eq!(program_output(&first.file), std::fs::read(sheet).unwrap());
}

#[test]
fn later_requests_stand_behind_earlier_ones() {
    // 02, CR 5 and CR 6 have come last; the numbers of the others stay, and they have no share file.
    let cases = cases();
    let place = |label: &str| cases.iter().position(|case| case.label == label);
    assert_eq!((place("TUT3_E2"), place("TUT3_SHARE")), (Some(3_337), Some(4_647)));
    assert!(cases[..4_647].iter().all(|case| case.share.is_empty()));
    assert!(cases[4_647..].iter().all(|case| !case.share.is_empty()));
}

/// A sheet of edition 1 as edition 2 prints it where year round has no distances: C, metres, metres after C and tariff 0.
fn with_nothing_year_round(sheet: &str) -> String {
    let line = |line: &str| match line.split(' ').collect::<Vec<_>>()[..] {
        ["C", c] => format!("C {c} 0\n"),
        [side @ ("G" | "D"), zone, metres, after_c, tariff, residual, total] => {
            format!("{side} {zone} {metres} {after_c} {tariff} 0 0 0 {residual} {total}\n")
        }
        _ => format!("{line}\n"),
    };
    sheet.lines().map(line).collect()
}

#[test]
fn where_no_flow_differs_edition_1_is_peak_s() {
    let list = cases();
    let pair = |name: &str| (format!("{name}, version 2"), format!("{name}, edition 2"));
    let marked = ["KILN with zones", "KILN with A-C marked", "all kinds of lengths", "TUT1_P150"].map(pair);
    let types = ["KILN of type 4 alone", "KILN of type 5 alone"].map(pair);
    let texts = ["KILN", "ALONE", "TUT1", "CUSC1421"].map(|name| (name.to_string(), format!("{name} in edition 2")));
    for (one, two) in marked.into_iter().chain(types).chain(texts) {
        assert_eq!(sheet_of(&list, &two), with_nothing_year_round(&sheet_of(&list, &one)), "{two}");
    }
    let kiln = String::from_utf8(folder_file("KILN.sheet")).unwrap();
    assert_eq!(sheet_of(&list, "KILN in edition 2"), with_nothing_year_round(&kiln));
}

#[test]
fn two_backgrounds_by_hand() {
    // Metres at peak and year round: S1 0 and 1,000, S2 3,000 and 0, S3 0 and -2,000, S4 -4,000 and 0, HUB none. TEC: S1
    // 10,000 kW of type 1; S2 1,000 of type 1, 7,000 of type 6; S3 1,400 of type 6; S4 1,400 of type 3; HUB 700 of type 6.
    // Demand: 2,100 at S3 and at S4, 4,900 at HUB. Zone 3 is S3 and S4: -2,000 and -1,000.
    // C at peak: (4,000 x 2,100 - 3,000 x 7,000 + 2,000 x 1,400) / (9,100 + 9,100) = -538.5. C year round:
    // (2,000 x 2,100 - 1,000 x 10,000 + 1,000 x 1,400) / (20,100 + 9,100) = -150.7. Tariffs 18 a metre.
    // Generation: 50,000,000,000 - (44,316 x 7,000 - 45,684 x 1,400 - 9,684 x 700) at peak - (15,282 x 10,000 - 2,718 x 8,000
    // - 20,718 x 1,400 - 2,718 x 700) year round = 49,660,356,200 over 20,100 kW. Demand: 50,000,000,000 - (9,684 + 38,718 +
    // 81,684 + 2,718) x 2,100 - (9,684 + 2,718) x 4,900 = 49,660,341,800 over 9,100 kW.
    let sheet = "\
C -538 -151
G 1 0 -538 -9684 1000 849 15282 2470664 2476262
G 2 3000 2462 44316 0 -151 -2718 2470664 2512262
G 3 -2000 -2538 -45684 -1000 -1151 -20718 2470664 2404262
G 4 0 -538 -9684 0 -151 -2718 2470664 2458262
G 5 -
D 1 -
D 2 0 538 9684 2000 2151 38718 5457180 5505582
D 3 4000 4538 81684 0 151 2718 5457180 5541582
D 4 0 538 9684 0 151 2718 5457180 5469582
L S1 0 0
L S2 0 0
L S3 0 0
L S4 0 0
L HUB 0 0
R 9800 3800
";
    let list = cases();
    assert_eq!(sheet_of(&list, "two backgrounds by hand"), sheet);
    // 01 "Errors that look right": no sheet shows how a node is divided.
    for how in ["in two", "in three", "turned round", "in two and turned round"] {
        assert_eq!(sheet_of(&list, &format!("two backgrounds by hand, stations {how}")), sheet, "{how}");
    }
}

#[test]
fn local_tariffs_of_edition_2_by_hand() {
    // Local metres 100, 200, 300 and 0 twice at S1, S2, S3, S5 and HUB; S4 has no TEC. Those who pay: 1,000 kW of type 1 at S1,
    // none at S2, 2,100 at S3, 700 at S5, 6,800 at HUB; demand 9,600. S5 stands 500 m up year round.
    // C year round: -500 x 700 / (10,600 + 9,600) = -17.3. Generation: 50,000,000,000 + 306 x 9,900 - 8,694 x 700 - 1,150 x
    // 1,000 - 3,450 x 2,100 = 49,988,548,600 over 10,600 kW. Demand: 50,000,000,000 - 306 x 9,600 over 9,600 kW.
    let sheet = "\
C 0 -17
G 1 0 0 0 0 -17 -306 4715900 4715594
G 2 0 0 0 0 -17 -306 4715900 4715594
G 3 0 0 0 0 -17 -306 4715900 4715594
G 4 -
G 5 0 0 0 500 483 8694 4715900 4724594
G 6 0 0 0 0 -17 -306 4715900 4715594
D 1 0 0 0 0 17 306 5208027 5208333
L S1 100 1150
L S2 200 2300
L S3 300 3450
L S5 0 0
L HUB 0 0
R 8600 3200
";
    assert_eq!(sheet_of(&cases(), "local tariffs of edition 2, p 500, revenue 100000"), sheet);
}

#[test]
fn sheets_that_are_the_same() {
    let list = cases();
    for name in ["a ring", "TUT3_E2", "TUT3_NOPEAK", "SEVEN"] {
        let plain = if name == "a ring" { "a ring with a length in each system" } else { name };
        let turned = format!("{name}, every second circuit turned");
        assert_eq!(sheet_of(&list, &turned), sheet_of(&list, plain), "{name}");
    }
    for how in ["in two", "in many", "with 0 kW"] {
        let divided = sheet_of(&list, &format!("stations divided: {how}"));
        assert_eq!(divided, sheet_of(&list, "stations divided: whole"), "{how}");
    }
    assert_eq!(sheet_of(&list, "SEVEN with stations turned round"), sheet_of(&list, "SEVEN"));
}

#[test]
fn halves_of_each_background_go_away_from_zero() {
    let list = cases();
    for system in ["wider", "peak wider", "local"] {
        for half in ["0.5 m", "-0.5 m"].map(|metres| format!("edition 2: {system} {metres}")) {
            assert_eq!(sheet_of(&list, &half), sheet_of(&list, &format!("{half}, 1 nm farther")), "{half}");
            assert_ne!(sheet_of(&list, &half), sheet_of(&list, &format!("{half}, 1 nm nearer")), "{half}");
        }
    }
}
